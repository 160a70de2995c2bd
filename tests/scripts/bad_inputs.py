"""Bad inputs of tools/container, tools/explain and tools/draws, each with the one line that the script says of it."""

NUMBER = "a number has decimal digits and, below zero, a minus before them"
MEANT = "what is meant to be wrong says so in its section 'answer'"
REPEAT = "a repetition is written 'repeat N: LINE', with a space behind the colon"
PAIRS = "bytes are pairs of hexadecimal digits, as in '00 FF'"
MINIMUM = "A(sum,10) asks for a sum over at least 10 sheets"
COLON = "has a colon and no label right behind it; a clear cell is '5', a labelled one '5:A(sum,2)'"
BRACKET = "has a bracket without its other one; a label has no spaces"
LABEL = "is no label; a label has eight hexadecimal digits, or stages as A(sum,2)"
CUT = "is not cut1 to cut6, cut with the digits that it must take off"
FIELD = "is no field with its number, each once; the fields are kind a b c d spare constant"
NAME = "a container is begun by 'container' and one name of a to z, 0 to 9 and _, of at most 100 characters"
TOO_MUCH = "makes more than 16,777,216 bytes and repeated characters to here"
BLAME = "the output was changed, is not that of CONTAINER without overlays, or is misread by this script"
TABLE = "a table is begun by 'table' and its number of columns, as in 'table 2', and with sheet numbers in its column 0 'table 2 sheets 0'"
ANSWERS = "'answers check', 'run', 'noise', 'overlays' or 'convert' stands before the first container"
TABLES_ALONE = "behind 'converted' stand tables, and then the answer"
YEAR = "a rule year is written as in 'year 1'"
SCALE = "is not a number above 0, as 3, 1/2 or 2.5, of at most 9 and 9 digits; -h prints help"

# Rows of a table of one column, in line 6 of ROW_TEXT.
ROW_TEXT = "container a\n# x\nplan\n  SCAN 0\ntable 1\n  {}\n"
ROWS = [
    ("5:", f"'5:' {COLON}"),
    ("5: A(sum,2)", f"'5:' {COLON}"),
    ("5 :A(sum,2)", "':A(sum,2)' has no value before its colon"),
    ("5:A(sum, 10)", f"'5:A(sum,' {BRACKET}"),
    ("5:A(sum,2", f"'5:A(sum,2' {BRACKET}"),
    ("5:T(cut1,cut4)", "in 'T(cut1,cut4)' cut stands twice"),
    ("5:T(cut4,cut2)", "in 'T(cut4,cut2)' cut stands twice"),
    ("5:T(add,add)", "in 'T(add,add)' add stands twice"),
    ("5:A(sum,sum,2)", "in 'A(sum,sum,2)' sum stands twice"),
    ("5:A(10,sum)", f"in 'A(10,sum)' the group minimum 10 does not stand last; {MINIMUM}"),
    ("5:A(sum)", f"in 'A(sum)' there is no group minimum; {MINIMUM}"),
    ("5:A()", f"in 'A()' there is no group minimum; {MINIMUM}"),
    ("5:A(sum,0)", "the group minimum '0' is not between 2 and 1,023"),
    ("5:A(sum,1)", "the group minimum '1' is not between 2 and 1,023"),
    ("5:A(1)", "the group minimum '1' is not between 2 and 1,023"),
    ("5:A(sum,1024)", "the group minimum '1024' is not between 2 and 1,023"),
    ("5:A(sum,-1)", "the group minimum '-1' is not between 2 and 1,023"),
    ("5:A(,2)", "in 'A(,2)' an operation is missing beside a comma"),
    ("5:T(cut3,)", "in 'T(cut3,)' an operation is missing beside a comma"),
    ("5:T", "'T' is no stage; T has one pair of brackets, and stages are joined by '+'"),
    ("5:H()", "'H()' is no stage; H stands alone, and stages are joined by '+'"),
    ("5:T(cut3)A(sum,2)", "'T(cut3)A(sum,2)' is no stage; T has one pair of brackets, and stages are joined by '+'"),
    ("5:T(cut3)+", "a stage is missing beside '+'"),
    ("5:t(cut3)", "'t(cut3)' is no stage; the stages are H, T(..), A(..) and N(..)"),
    ("5:A(sum,2)+T(cut3)", "in 'A(sum,2)+T(cut3)' T stands behind A; the order is H, T, A, N"),
    ("5:A(sum,2)+A(count,3)", "in 'A(sum,2)+A(count,3)' A stands twice"),
    ("5:T(cut)", f"'cut' {CUT}"),
    ("5:T(cut7)", f"'cut7' {CUT}"),
    ("5:T(sum)", "'sum' is no operation of T, which has add, sub, cut1 to cut6 and band"),
    ("5:A(add,2)", "'add' is no operation of A, which has count, sum, min, max and avg"),
    ("5:2002002", f"'2002002' {LABEL}"),
    ("5:0x20020002", f"'0x20020002' {LABEL}"),
    (
        "5:20030000",
        "table 0, row 0, column 0 has the label 20030000: A is present with a group minimum of 0, and this is 2 to 1,023"
        f" (15 at byte 46; {MEANT})",
    ),
    (
        "5:20000001",
        "table 0, row 0, column 0 has the label 20000001: A is present with a group minimum of 1, and this is 2 to 1,023"
        f" (15 at byte 46; {MEANT})",
    ),
    ("0x10", f"'0x10' is not a number; {NUMBER}"),
    ("1_000", f"'1_000' is not a number; {NUMBER}"),
    ("+5", f"'+5' is not a number; {NUMBER}"),
    ("1.5", f"'1.5' is not a number; {NUMBER}"),
    ("7,3", f"'7,3' is not a number; {NUMBER}"),
    ("\u0663", "the character U+0663 stands outside a comment"),
    ("5\u00a06", "the character U+00A0 stands outside a comment"),
    ("5\x00", "the character U+0000 stands outside a comment"),
    ("5 # note", f"'#' is not a number; {NUMBER}"),
    ("9" * 30, f"the value '{'9' * 30}' is not between -9,223,372,036,854,775,808 and 9,223,372,036,854,775,807"),
    (
        "140737488355328",
        "table 0, row 0, column 0 has a value outside -140,737,488,355,328 .. 140,737,488,355,327"
        f" (14 at byte 38; {MEANT})",
    ),
    ("1 2", "a row of 2 cells in a table of 1 column"),
    ("{i}", "'{' stands only in a line behind 'repeat N: '"),
    ("repeat 3:5", f"'repeat 3:5': {REPEAT}"),
    ("repeat: 5", f"'repeat: 5': {REPEAT}"),
    ("repeat 99999999: 5", "the number of lines '99999999' is not between 0 and 1,000"),
    ("repeat 3: repeat 3: 5", "a repetition does not stand in another one"),
    ("repeat 3: {i/0}", "'{i/0}' divides by 0"),
    ("repeat 3: {i%0}", "'{i%0}' divides by 0"),
    ("repeat 3: {j}", "'{j}' is not i with at most 9 operations by numbers of at most 9 digits, as in {i*3+1}"),
    ("repeat 9: {i" + "*999999999" * 9 + "}", "'{i" + "*999999999" * 5 + "*9999999..' becomes too large"),
    ("bytes 0", f"'0' is no byte; {PAIRS}"),
    ("zeros 99999999", "the number of zeros '99999999' is not between 0 and 131,072"),
    ("5" * 5000, "this line has more than 4,096 characters"),
]

# Steps in line 5 of STEP_TEXT, behind a SCAN, over a table of two columns.
STEP_TEXT = "container a\n# x\nplan\n  SCAN 0\n  {}\ntable 2\n  1 2\n"
STEPS = [
    ("repeat 3:SCAN 0", f"'repeat 3:SCAN 0': {REPEAT}"),
    ("SCAN", "'SCAN': SCAN is written as in 'SCAN 0'"),
    ("SCAN 0 1", "'SCAN 0 1': SCAN is written as in 'SCAN 0'"),
    ("SCAN 0;", "a step is missing beside ';'"),
    ("SCAN x", f"'x' is not a number; {NUMBER}"),
    ("SCAN 300", "the table '300' is not between 0 and 255"),
    ("SCAN 5", f"step 1, SCAN of table 5: table 5 does not exist: the container has 1 table, table 0 (19 at byte 34; {MEANT})"),
    ("select 0", "'select' is no step; there are SCAN UNION JOIN FILTER KEEP APPLY GROUP NOISE"),
    ("UNION", f"step 1, UNION: it needs 2 tables, and the steps before it leave 1 (18 at byte 34; {MEANT})"),
    ("SCAN 0", f"the plan ends and leaves 2 tables, and it must leave one (18 at byte 50; {MEANT})"),
    ("JOIN 0", "'JOIN 0': JOIN is written as in 'JOIN 0 1'"),
    ("FILTER 1 == 5", "'==' is no comparison; there are = != < <= > >="),
    ("FILTER 1 >=", "'FILTER 1 >=': FILTER is written as in 'FILTER 1 >= 5' or 'FILTER 1 < column 2'"),
    (
        "FILTER 1 = column 9",
        "step 1, FILTER for rows whose column 1 = column 9: column 9 does not exist: the table that it reads has 2 columns, 0 to 1"
        f" (19 at byte 34; {MEANT})",
    ),
    ("KEEP", f"step 1, KEEP, a wrong record: it keeps no column (17 at byte 34; {MEANT})"),
    ("KEEP 9", "the column '9' is not between 0 and 7"),
    ("KEEP 1 0", "columns rise, each once, and 1 0 do not"),
    ("APPLY 1 mul 3", "'mul' is no operation; there are add sub cut band"),
    ("APPLY 1 cut 7", f"step 1, APPLY, a wrong record: the constant of cut is 1 to 6 and not 7 (17 at byte 34; {MEANT})"),
    (
        "APPLY 1 cut column 0",
        f"step 1, APPLY, a wrong record: cut takes a constant, so c is zero and not 1 (17 at byte 34; {MEANT})",
    ),
    ("GROUP 0 sum", "'GROUP 0 sum': GROUP is written as in 'GROUP 0 1 sum 2' or 'GROUP count 0'"),
    ("GROUP 0 median 1", "'median' is no aggregate; there are count sum min max avg"),
    ("GROUP sum sum 1", f"'sum' is not a number; {NUMBER}"),
    ("NOISE", "'NOISE': NOISE is written as in 'NOISE 1'"),
    ("NOISE 0 1", "'NOISE 0 1': NOISE is written as in 'NOISE 1'"),
    ("NOISE x", f"'x' is not a number; {NUMBER}"),
    ("NOISE 300", "the column '300' is not between 0 and 255"),
    (
        "NOISE 2",
        "step 1, NOISE on column 2: column 2 does not exist: the table that it reads has 2 columns, 0 to 1"
        f" (19 at byte 34; {MEANT})",
    ),
    ("NOISE 1 with b=1", f"step 1, NOISE, a wrong record: b is 1, and this step does not use it, so it is zero (17 at byte 34; {MEANT})"),
    ("NOISE 1 with spare=1", f"step 1, NOISE, a wrong record: one of its bytes 5 to 7 is not zero (17 at byte 34; {MEANT})"),
    ("KEEP 0 with x=1", f"'x=1' {FIELD}"),
    ("KEEP 0 with d=1 d=2", f"'d=2' {FIELD}"),
    ("KEEP 0 with d=1", f"step 1, KEEP, a wrong record: d is 1, and this step does not use it, so it is zero (17 at byte 34; {MEANT})"),
    ("STEP kind=9", f"step 1, a record of kind 9: kind 9 does not exist; they are 1 to 8 (17 at byte 34; {MEANT})"),
    ("answers check", ANSWERS),
    ("draws", "'draws' stands only in a text that begins with 'answers noise'"),
    ("overlay", "'overlay' stands only in a text that begins with 'answers overlays'"),
    ("converted", "'converted' stands only in a text that begins with 'answers convert'"),
    ("labels", "'labels' stands only behind 'overlay'"),
]

# Whole texts, each with the line that the message names.
GOOD_TEXT = "container a\n# x\nplan\n  SCAN 0\ntable 1\n  5\n"
TEXTS = [
    ("", None, "there is no container in it"),
    (b"\xff\xfe\n", 1, "byte 0 is not UTF-8, so this is no text"),
    (b"container a\n# \xe9\n", 2, "byte 14 is not UTF-8, so this is no text"),
    ("hello\n", 1, "'hello' stands before the first line 'container NAME'"),
    ("container A\n", 1, f"'container A': {NAME}"),
    ("container a b\n", 1, f"'container a b': {NAME}"),
    (GOOD_TEXT * 2, 7, "there is another container 'a'"),
    ("answers\n" + GOOD_TEXT, 1, ANSWERS),
    ("answers maybe\n" + GOOD_TEXT, 1, "'maybe' is no kind of answers; there are check run noise overlays convert"),
    ("answers noise\n" + GOOD_TEXT, 2, "a has no section 'draws', which may be empty"),
    ("answers noise\n" + GOOD_TEXT + "draws\ndraws\n", 9, "a has its draws already"),
    ("answers noise\n" + GOOD_TEXT + "draws 5\n", 8, "the section 'draws' is begun by a line with this word alone"),
    ("answers noise\n" + GOOD_TEXT + "draws\n  5 -6\n  1.5 7\n", 10, f"'1.5' is not a number; {NUMBER}"),
    (
        "answers noise\n" + GOOD_TEXT + "draws\n  9223372036854775808\n",
        9,
        "the draw '9223372036854775808' is not between -9,223,372,036,854,775,808 and 9,223,372,036,854,775,807",
    ),
    ("answers noise\n" + GOOD_TEXT + "draws\n" + f"  repeat 1000: {'5 ' * 900}\n", 9, f"the text {TOO_MUCH}"),
    ("year 1\n" + GOOD_TEXT, 1, "'year 1' stands before the first line 'container NAME'"),
    ("container a\n# x\nyear\n", 3, YEAR),
    ("container a\n# x\nyear 1 0\n", 3, YEAR),
    ("container a\n# x\nyear x\n", 3, f"'x' is not a number; {NUMBER}"),
    ("container a\n# x\nyear 0x01\n", 3, f"'0x01' is not a number; {NUMBER}"),
    ("container a\n# x\nyear -1\n", 3, "the rule year '-1' is not between 0 and 255"),
    ("container a\n# x\nyear 256\n", 3, "the rule year '256' is not between 0 and 255"),
    ("container a\n# x\nyear 1\nyear 1\n", 4, "a has its rule year already"),
    ("container a\n# x\nyear 0\nyear 1\n", 4, "a has its rule year already"),
    ("container a\n# x\nyear 1\nraw\n  02 01\n", 4, "'raw' is the whole container, so there is no line 'year'"),
    (GOOD_TEXT + "year 1\n", 7, "'year' stands before the first section"),
    (GOOD_TEXT + "answer\n  year 1\n", 8, "'year' stands before the first section"),
    (GOOD_TEXT.replace("# x\n", "# x\nyear 2\n"), 1, f"its rule year, byte 1, is 2, and it is 0 or 1 (11 at byte 0; {MEANT})"),
    (GOOD_TEXT.replace("# x\n", "# x\nyear 255\n"), 1, f"its rule year, byte 1, is 255, and it is 0 or 1 (11 at byte 0; {MEANT})"),
    (
        "answers convert\n" + GOOD_TEXT.replace("# x\n", "# x\nyear 1\n") + "answer\n",
        2,
        f"its rule year, byte 1, is 1, and a container that is converted has 0 (11 at byte 0; {MEANT})",
    ),
    (GOOD_TEXT + "table 1\n" * 254, 260, "there are more than 255 parts"),
    ("container a\nplan\n", 1, "a has no comment, a line with # that says what it shows"),
    ("container a\n# x\n", 1, "a has no plan"),
    ("container a\n# x\n5\n", 3, "'5' stands before the first section; sections are plan table part raw damage draws overlay labels converted answer"),
    ("container a\n# x\nplan\n  SCAN 0\n", 1, "a has no table"),
    ("container a\n# x\ntable 1\n  5\n", 1, "a has no plan; its section comes before the tables"),
    ("container a\n# x\ntable 1\n  5\nplan\n", 5, "the plan is the first part, and there is one"),
    (
        "container a\n# x\nplan\n  repeat 65: SCAN 0\ntable 1\n",
        3,
        f"the plan has 1,040 bytes, and it has 1 to 64 steps of 16 bytes (16 at byte 18; {MEANT})",
    ),
    (
        "container a\n# x\nplan\n  SCAN 0\ntable 1\n  repeat 300: 5\n",
        5,
        f"table 0: it has 300 rows, and a table has at most 256 (13 at byte 34; {MEANT})",
    ),
    (
        "container a\n# x\nplan\n  SCAN 0\ntable 9\n  1 2 3 4 5 6 7 8 9\n",
        5,
        f"table 0: it has 9 columns, and a table has 1 to 8 (13 at byte 34; {MEANT})",
    ),
    (
        GOOD_TEXT + "table 1\n" * 8,
        1,
        f"its part count is 10, and it is 2 to 9: the plan and 1 to 8 tables (11 at byte 0; {MEANT})",
    ),
    (GOOD_TEXT + "table\n", 7, TABLE),
    (GOOD_TEXT + "table 2 0\n", 7, TABLE),
    (GOOD_TEXT + "table 2 sheets\n", 7, TABLE),
    (GOOD_TEXT + "table 2 sheet 0\n", 7, TABLE),
    (GOOD_TEXT + "table 2 sheets 0 1\n", 7, TABLE),
    (GOOD_TEXT + "table 300\n", 7, "the number of columns '300' is not between 0 and 255"),
    (GOOD_TEXT + "table 2 sheets x\n", 7, f"'x' is not a number; {NUMBER}"),
    (GOOD_TEXT + "table 2 sheets -1\n", 7, "the column of sheet numbers '-1' is not between 0 and 254"),
    (GOOD_TEXT + "table 2 sheets 255\n", 7, "the column of sheet numbers '255' is not between 0 and 254"),
    (
        GOOD_TEXT + "table 2 sheets 2\n  1 2\n",
        7,
        "table 1: its byte 1 is 3, for sheet numbers in column 2, and column 2 does not exist: the table has 2 columns, 0 to 1"
        f" (20 at byte 58; {MEANT})",
    ),
    (
        GOOD_TEXT + "table 2 sheets 1\n  1 2\n  1 -2\n",
        7,
        f"table 1, row 1, column 1 is a sheet number, and it is negative (20 at byte 58; {MEANT})",
    ),
    (
        "container a\n# x\nplan\ntable 2 sheets 0\n  1:A(sum,2) 2\n",
        4,
        f"table 0, row 0, column 0 is a sheet number, and it is not clear, with the label A(sum,2) (20 at byte 18; {MEANT})",
    ),
    (GOOD_TEXT + "plan 1\n", 7, "the section 'plan' is begun by a line with this word alone"),
    (GOOD_TEXT + "raw\n", 7, "'raw' is the whole container, so there is no other part"),
    (GOOD_TEXT + "part\n  5\n", 8, "a section 'part' has lines 'bytes 00 FF' and 'zeros 15' alone"),
    ("container a\n# x\nraw\n  zz\n", 4, f"'zz' is no byte; {PAIRS}"),
    (
        GOOD_TEXT + "damage\n  break 5\n",
        8,
        "'break' is no damage; there are count offset length columns rows bytes truncate append",
    ),
    (GOOD_TEXT + "damage\n  count\n", 8, "count has 1 number behind it"),
    (GOOD_TEXT + "damage\n  offset 9 5\n", 8, "byte 77 is past the end"),
    (GOOD_TEXT + "damage\n  rows 1 5\n", 8, "the table '1' is not between 0 and 0"),
    (GOOD_TEXT + "damage\n  append zeros 131072\n", 8, "a has more than 131,072 bytes"),
    (GOOD_TEXT + "damage\n" + "  count 2\n" * 101, 108, "there are more than 100 lines of damage"),
    (GOOD_TEXT + "answer\n" + f"  repeat 1000: {'x' * 4000}\n" * 5, 12, f"the text {TOO_MUCH}"),
    (GOOD_TEXT + "answer\n" + "  repeat 1000: R 5\n" * 300, 258, f"the text {TOO_MUCH}"),
    ("#" * (4 * 2**20 + 1), None, "it has more than 4,194,304 bytes"),
    (
        "".join(f"container c{i}\n# x\nraw\n  zeros 131072\n" for i in range(128)),
        512,
        f"the text {TOO_MUCH}",
    ),
]

# Overlays of a container with two tables, of one column and of two with sheet numbers in the first; they begin in line 11.
OVERLAY_TEXT = "answers overlays\ncontainer a\n# x\nplan\n  SCAN 0\ntable 1\n  5\ntable 2 sheets 0\n  6 7\noverlay\n"
OVERLAYS = [
    ("labels\n  H\n", 10, f"overlay 0: its count is 1, and the container has 2 tables (21 at byte 0; {MEANT})"),
    ("labels\n  H\n  H\nlabels clear\n", 11, f"overlay 0: the labels of table 0 have 12 bytes, and 1 row of 1 column need 8 (21 at byte 18; {MEANT})"),
    ("labels clear\nlabels\n", 12, f"overlay 0: the labels of table 1 have 4 bytes, and 1 row of 2 columns need 12 (21 at byte 26; {MEANT})"),
    (
        "labels\n  00000001\nlabels clear\n",
        12,
        f"overlay 0: table 0, row 0, column 0 has the label 00000001: it has a group minimum, 1, and A (bit 29) is absent (22 at byte 22; {MEANT})",
    ),
    (
        "labels clear\nlabels\n  . 20020001\n",
        13,
        "overlay 0: table 1, row 0, column 1 has the label 20020001: A is present with a group minimum of 1, and this is 2 to 1,023"
        f" (22 at byte 34; {MEANT})",
    ),
    (
        "overlay\nlabels clear\nlabels\n  A(sum,2) .\n",
        14,
        f"overlay 1: table 1, row 0, column 0 is a sheet number, and its label here is A(sum,2) and not zero (22 at byte 30; {MEANT})",
    ),
    ("labels\n  H H\n", 12, "a row of 2 labels for a table of 1 column"),
    ("labels clear\nlabels\n  .\n", 13, "a row of 1 label for a table of 2 columns"),
    ("labels clear\nlabels clear\nlabels\n", 13, "there is no section 'table' for table 2, whose labels these would be"),
    ("labels\n  0\n", 12, f"'0' {LABEL}"),
    ("labels\n  5:H\n", 12, "'5:H' is no stage; the stages are H, T(..), A(..) and N(..)"),
    ("labels\n  A(sum, 2)\n", 12, f"'A(sum,' {BRACKET}"),
    ("labels none\n", 11, "labels are begun by 'labels', or as a whole given by 'labels clear'"),
    ("labels clear 5\n", 11, "labels are begun by 'labels', or as a whole given by 'labels clear'"),
    ("  H\n", 11, "an overlay has sections 'labels', one for each table of the container"),
    ("table 1\n", 11, "the plan and the tables stand before the overlays"),
    ("plan\n", 11, "the plan and the tables stand before the overlays"),
    ("overlay\n" * 4, 14, "a container has at most 4 overlays"),
    ("overlay 1\n", 11, "the section 'overlay' is begun by a line with this word alone"),
    ("labels clear\nraw\n", 12, "'raw' is the whole overlay, so there is no other part"),
    ("raw\nlabels\n", 12, "'raw' is the whole overlay, so there is no other part"),
    ("raw\n  5\n", 12, f"'5' is no byte; {PAIRS}"),
    ("part\n  H\n", 12, "a section 'part' has lines 'bytes 00 FF' and 'zeros 15' alone"),
    ("labels clear\nlabels clear\ndamage\n  rows 2 5\n", 14, "the table '2' is not between 0 and 1"),
    ("damage\n  rows 0 5\n", 12, "overlay 0 has no table"),
    ("labels clear\ndamage\n  append zeros 131072\n", 13, "overlay 0 has more than 131,072 bytes"),
    ("draws\n", 11, "'draws' stands only in a text that begins with 'answers noise'"),
]

# What stands behind a container to be converted, of one table with a minimum of 1 and a clear cell; it begins in line 8.
CONVERT_TEXT = "answers convert\ncontainer a\n# x\nplan\n  SCAN 0\ntable 2\n  5:20020001 6\n"
CONVERSIONS = [
    ("", 2, "a has no section 'answer', which may be empty"),
    ("answer\n  46\n", 2, "the offsets of its answer are 46, and those of the bytes that change are none"),
    (
        "answer\n",
        2,
        "what it is converted to is refused with 15 at byte 46: table 0, row 0, column 0 has the label 20020001: A is present with a group minimum"
        " of 1, and this is 2 to 1,023",
    ),
    ("converted\ntable 2\n  5:A(sum,2) 6\n", 2, "a has no section 'answer', which may be empty"),
    ("converted\ntable 2\n  5:A(sum,2) 6\nanswer\n", 8, "the offsets of its answer are none, and those of the bytes that change are 46"),
    ("converted\ntable 2\n  5:A(sum,2) 6\nanswer\n  47\n", 8, "the offsets of its answer are 47, and those of the bytes that change are 46"),
    (
        "converted\ntable 2\n  5:A(sum,2) 7\nanswer\n  repeat 9: {i*2+30}\n",
        8,
        "the offsets of its answer are 30, 32, 34, 36, 38, 40, 42, 44, .., and those of the bytes that change are 46, 50",
    ),
    ("converted\ntable 2\n  5:A(sum,3) 6\nanswer\n  46\n", 8, "a byte changes otherwise than from 1 to 2"),
    ("converted\ntable 2\n  5:A(sum,2) 6\nanswer\n  X 99 0\n", 8, f"'X 99 0' is not a number; {NUMBER}"),
    ("converted\ntable 2\n  5:A(sum,2) 6\nanswer\n  65536\n", 8, "the offset '65536' is not between 0 and 65,535"),
    ("converted\ntable 2\n  5:A(sum,2) 6\nanswer\n  X 15 46\n", 2, "a is refused, so there is no section 'converted'"),
    ("converted\ntable 2\nanswer\n  46\n", 8, "the container has 62 bytes, and what it is converted to 38"),
    ("converted\ntable 2\n  5:A(sum,2)\n", 10, "a row of 1 cell in a table of 2 columns"),
    ("converted\n  5:A(sum,2) 6\n", 9, TABLES_ALONE),
    ("converted\nplan\n", 9, TABLES_ALONE),
    ("converted\npart\n", 9, TABLES_ALONE),
    ("converted\ndamage\n", 9, TABLES_ALONE),
    ("converted\nconverted\n", 9, TABLES_ALONE),
    ("converted 2\n", 8, "the section 'converted' is begun by a line with this word alone"),
    ("container b\n# x\nraw\nconverted\n", 11, "'converted' stands behind the plan and the tables"),
    ("table 1\n  5:20020000\nanswer\n", 9, f"table 1, row 0, column 0 has the label 20020000: A is present with a group minimum of 0, and this is 1 to 1,023 (15 at byte 82; {MEANT})"),
    ("overlay\n", 8, "'overlay' stands only in a text that begins with 'answers overlays'"),
]

# Outputs of the printed case, damaged; `explain CONTAINER` reads them. What the monitor prints for it:
PRINTED = "S 0 1 2 2 2\nS 1 7 1 2 0\nR 7 8\n"
WITH_CONTAINER = [
    ("", "standard input is empty, and the monitor always prints a line"),
    ("S 0 1 2 2 2\nS 1 7 1 2 0\nR 7 8", "line 3: it has no newline at its end: the output was cut off"),
    ("S 0 1 2 2 2\nS 1 7 1 2 0\nR 7\n", "line 3: it is a row of 1 value, and the table has 2 columns"),
    ("S 0 1 2 2 2\nS 1 7 1 2 0\n", "after line 2: the table has 1 row, and 0 are printed"),
    ("S 0 1 2 2 2\nS 1 7 1 2 0\nR 7 8\nR 7 8\n", "line 4: it is row 1, and the table has 1 row"),
    ("S 0 1 2 2 2\nS 1 7 1 2 1\nR 7 8\n", "line 3: it is a released row, and the last step leaves 1 stage, and a release has none"),
    ("S 0 1 2 2 2\n", "after line 1: there is neither a release nor a refusal: the last step leaves 2 stages, and a release has none"),
    ("S 1 7 1 2 0\nR 7 8\n", "line 1: it is the line of step 1, and step 0 comes next"),
    ("R 5\n", "line 1: it is a released row, and no step is finished"),
    ("S 0 1 2 2 2\nS 1 7 1 2 0\nR 7 9\n", f"line 3: it is a row with other values than the container gives there: {BLAME}"),
    (
        "S 0 1 2 2 2\nS 1 6 2 3 2\nX 35 2 0 1\n",
        f"line 2: it says kind 6, and step 1 of the container, GROUP by column 0, sum of column 1, has kind 7: {BLAME}",
    ),
    (
        "S 0 1 3 2 2\nS 1 7 1 2 0\nR 7 8\n",
        f"line 1: it says 3 rows, and step 0 of the container, SCAN of table 0, makes 2: {BLAME}",
    ),
    (
        "S 0 1 2 3 2\nS 1 7 1 2 0\nR 7 8\n",
        f"line 1: it says 3 columns, and step 0 of the container, SCAN of table 0, makes 2: {BLAME}",
    ),
    (
        "S 0 1 2 2 1\nS 1 7 1 2 0\nR 7 8\n",
        f"line 1: it says 1 stage left, and step 0 of the container, SCAN of table 0, leaves 2: {BLAME}",
    ),
    ("S 0 1 0 2 0\n", f"line 1: it says 0 rows, and step 0 of the container, SCAN of table 0, makes 2: {BLAME}"),
    (
        "S 0 1 2 2 2\nS 1 7 1 2 0\nX 36 2 0 1\n",
        f"line 3: it is refusal 36 at 2 0 1, and by the container a released row stands here: {BLAME}",
    ),
    ("S 0 1 2 2 2\nS 1 7 1 2 0\nX 51 2 0 1\n", "line 3: the place of refusal 51 is the number of steps, 0 and 0"),
    ("S 0 1 2 2 2\nS 1 7 1 2 0\nX 51 1 0 0\n", "line 3: it is a refusal at step 1, and step 2 comes next"),
    (
        "S 0 1 2 2 2\nX 51 1 0 0\n",
        "line 2: refusal 51 stands in place of a release, and the last step leaves 2 stages, and a release has none",
    ),
    ("S 0 1 2 2 0\nX 51 1 0 0\n", f"line 1: it says 0 stages left, and step 0 of the container, SCAN of table 0, leaves 2: {BLAME}"),
    (PRINTED + "X 51 2 0 0\n", "line 4: it is a refusal, and stands behind a released row"),
    ("X 15 46\n", f"line 1: it is refusal 15 at 46, and by the container the line of step 0 stands here: {BLAME}"),
    ("X 15 701\n", f"line 1: it is refusal 15 at 701, and by the container the line of step 0 stands here: {BLAME}"),
    ("X 21 0\n", f"line 1: it is refusal 21 at 0, and by the container the line of step 0 stands here: {BLAME}"),
    (PRINTED + "X 36 2 0 1\n", "line 4: it is a refusal, and stands behind a released row"),
    ("printed_case\n" + PRINTED, "line 1: 'printed_case' is no line of the monitor; its lines begin with S, R or X"),
    (PRINTED.replace("\n", "\r\n"), "line 1: it ends in a carriage return: the output was changed on its way"),
]
# Two containers with NOISE, and outputs that do not fit them. The draws decide values of the first, and rows of the second.
NOISY_TEXT = """container noisy
# x
plan
  SCAN 0
  NOISE 1
  KEEP 0 2
table 2
  7 100:N(noise)
  8 200:N(noise)
container open
# x
plan
  SCAN 0
  NOISE 1
  FILTER 2 >= 10
  APPLY 2 add column 0
table 2
  7 100:N(noise)
  8 200:N(noise)
"""
NOISY = "S 0 1 2 2 2\nS 1 8 2 3 2\n"
BY_THE_CONTAINER = "and by the container"
WITH_NOISE = [
    ("noisy", NOISY + "S 2 5 2 2 0\nR 7 103\nR 9 203\n", "line 5: it is a row with other values than the container gives there"),
    ("noisy", NOISY + "S 2 5 2 2 0\nX 36 3 1 0\n", f"line 4: it is refusal 36 at 3 1 0, {BY_THE_CONTAINER} a released row stands here"),
    (
        "noisy",
        "S 0 1 2 2 2\nX 37 1 1 0\n",
        f"line 2: it is refusal 37 at 1 1 0, {BY_THE_CONTAINER} refusal 37 at 1 1 1 stands here",
    ),
    (
        "noisy",
        NOISY + "X 37 2 0 1\n",
        f"line 3: it is refusal 37 at 2 0 1, {BY_THE_CONTAINER} the line of step 2 stands here",
    ),
    (
        "noisy",
        "S 0 1 2 2 2\nX 32 1 0 1\n",
        f"line 2: it is refusal 32 at 1 0 1, {BY_THE_CONTAINER} the line of step 1 stands here",
    ),
    (
        "noisy",
        "S 0 1 2 2 2\nS 1 8 2 3 3\nS 2 5 2 2 0\nR 7 103\nR 8 203\n",
        "line 2: it says 3 stages left, and step 1 of the container, NOISE on column 1, leaves 2",
    ),
    (
        "open",
        NOISY + "S 2 5 2 3 2\nS 3 6 2 4 2\nX 35 4 0 1\n",
        "line 3: it says kind 5, and step 2 of the container, FILTER for rows whose column 2 >= 10, has kind 4",
    ),
    ("open", NOISY + "S 2 4 0 3 0\n", "line 4: it is missing, and the line of step 3 stands here by the container"),
    ("open", NOISY + "S 2 4 1 3 1\nX 34 3 256 0\n", "line 4: no UNION or JOIN of these tables makes more than 256 rows"),
    ("open", NOISY + "S 2 4 1 3 1\nX 37 3 0 2\n", f"line 4: it is refusal 37 at 3 0 2, {BY_THE_CONTAINER} the line of step 3 stands here"),
    ("open", NOISY + "S 2 4 1 3 1\nX 35 3 0 1\n", f"line 4: it is refusal 35 at 3 0 1, {BY_THE_CONTAINER} the line of step 3 stands here"),
    (
        "open",
        NOISY + "S 2 4 1 3 1\nS 3 6 1 4 1\nX 33 4 0 0\n",
        f"line 5: it is refusal 33 at 4 0 0, {BY_THE_CONTAINER} the output has ended before it",
    ),
    (
        "open",
        NOISY + "S 2 4 0 3 0\nS 3 6 0 4 0\nS 4 5 0 1 0\n",
        f"line 5: it is the line of step 4, {BY_THE_CONTAINER} the output has ended before it",
    ),
]

# Outputs of the printed case under an overlay that asks for 3 sheets, damaged or of another run.
OVERLAID_TEXT = """answers overlays
container overlaid
# x
plan
  SCAN 0
  GROUP 0 sum 1
table 2
  7 3:A(sum,2)
  7 5:A(sum,2)
overlay
labels
  . A(sum,3)
  . A(sum,3)
"""
OVERLAID_BLAME = BLAME.replace("without overlays", "with 1 overlay")
OVERLAID = [
    (PRINTED, "line 2: it says 0 stages left, and step 1 of the container, GROUP by column 0, sum of column 1, leaves 1"),
    ("X 21 10\n", "line 1: it is refusal 21 at 10, and by the container the line of step 0 stands here"),
    ("X 22 14\n", "line 1: it is refusal 22 at 14, and by the container the line of step 0 stands here"),
]

# Outputs that cannot be any container's; `explain` reads them without one.
ALONE = [
    ("\n", "line 1: '' is no line of the monitor; its lines begin with S, R or X"),
    ("S 0 1 2 2\n", "line 1: it is not S and five numbers"),
    ("S 0 1 2 2 02\n", "line 1: it is not S and numbers behind single spaces"),
    ("S 0  1 2 2 2\n", "line 1: it is not S and numbers behind single spaces"),
    ("S 0 9 2 2 2\n", "line 1: kind 9 does not exist"),
    ("S 0 1 257 2 2\n", "line 1: no table has 257 rows"),
    ("S 0 1 2 9 2\n", "line 1: no table has 9 columns"),
    ("S 0 1 2 2 17\n", "line 1: 2 rows of 2 columns cannot have 17 stages left"),
    ("S 0 2 2 2 2\n", "line 1: UNION needs 2 tables, and the steps before it leave none"),
    ("S 0 1 2 2 2\nS 1 5 1 2 0\n", "line 2: a KEEP cannot make 1 row of 2 columns with 0 stages left here"),
    ("S 0 1 2 2 2\nS 1 8 2 2 2\n", "line 2: a NOISE cannot make 2 rows of 2 columns with 2 stages left here"),
    ("S 0 1 2 2 2\nS 1 8 1 3 2\n", "line 2: a NOISE cannot make 1 row of 3 columns with 2 stages left here"),
    ("S 0 1 2 2 2\nS 1 8 2 3 1\n", "line 2: a NOISE cannot make 2 rows of 3 columns with 1 stage left here"),
    ("S 0 1 1 2 5\nS 1 8 1 3 7\n", "line 2: a NOISE cannot make 1 row of 3 columns with 7 stages left here"),
    ("S 0 8 1 2 0\n", "line 1: NOISE needs 1 table, and the steps before it leave none"),
    ("S 0 1 1 1 0\nR 140737488355328\n", "line 2: it has a number out of the range of values"),
    ("S 0 1 1 1 0\nS 1 1 1 1 0\nR 5\n", "line 3: it is a released row, and the steps so far leave 2 tables, and one is released"),
    ("X 12 0\n", "line 1: refusal 12 cannot stand at byte 0"),
    ("X 12 99999\n", "line 1: refusal 12 cannot stand at byte 99999"),
    ("X 11 5\n", "line 1: refusal 11 cannot stand at byte 5"),
    ("X 17 19\n", "line 1: refusal 17 cannot stand at byte 19"),
    ("X 20 17\n", "line 1: refusal 20 cannot stand at byte 17"),
    ("X 20 1 0 0\n", "line 1: the place of refusal 20 is one number"),
    ("X 21 1\n", "line 1: refusal 21 cannot stand at byte 1"),
    ("X 21 6\n", "line 1: refusal 21 cannot stand at byte 6"),
    ("X 21 11\n", "line 1: refusal 21 cannot stand at byte 11"),
    ("X 21 65538\n", "line 1: refusal 21 cannot stand at byte 65538"),
    ("X 21 0 0 0\n", "line 1: the place of refusal 21 is one number"),
    ("X 22 10\n", "line 1: refusal 22 cannot stand at byte 10"),
    ("X 22 16\n", "line 1: refusal 22 cannot stand at byte 16"),
    ("X 22 65534\n", "line 1: refusal 22 cannot stand at byte 65534"),
    ("S 0 1 1 1 0\nX 22 14\n", "line 2: refusal 22 comes before the first step, and a step is finished"),
    ("X 23 34\n", "line 1: refusal 23 does not exist"),
    ("X 12\n", "line 1: the place of refusal 12 is one number"),
    ("X 31 1 0\n", "line 1: the place of refusal 31 is three numbers"),
    ("X 99 0\n", "line 1: refusal 99 does not exist"),
    ("X 50 1 0 0\n", "line 1: refusal 50 does not exist"),
    ("X 38 1 0 0\n", "line 1: refusal 38 does not exist"),
    ("X 37 1\n", "line 1: the place of refusal 37 is three numbers"),
    ("X 37 0 0 0\n", "line 1: refusal 37 needs a table, and no step is finished"),
    ("S 0 1 2 2 0\nX 37 1 2 0\n", "line 2: there is no row 2, column 0 in what step 1 can read"),
    ("S 0 1 2 2 0\nX 37 1 0 2\n", "line 2: there is no row 0, column 2 in what step 1 can read"),
    (
        "S 0 1 1 1 0\n" + "".join(f"S {k} 5 1 1 0\n" for k in range(1, 64)) + "X 37 64 0 0\n",
        "line 65: a plan has at most 64 steps",
    ),
    ("X 51 1\n", "line 1: the place of refusal 51 is three numbers"),
    ("X 51 0 0 0\n", "line 1: refusal 51 needs a table, and no step is finished"),
    (
        "S 0 1 1 1 0\nS 1 1 1 1 0\nX 51 2 0 0\n",
        "line 3: refusal 51 stands in place of a release, and the steps so far leave 2 tables, and one is released",
    ),
    ("X 1 0 0 1\n", "line 1: the place of refusal 1 is 0 0 0"),
    ("X 31 0 0 0\n", "line 1: refusal 31 needs a table, and no step is finished"),
    ("S 0 1 2 2 2\nX 12 2\n", "line 2: refusal 12 comes before the first step, and a step is finished"),
    ("S 0 1 2 2 2\nX 31 2 0 0\n", "line 2: it is a refusal at step 2, and step 1 comes next"),
    ("S 0 1 2 2 2\nX 31 1 2 0\n", "line 2: there is no row 2, column 0 in what step 1 can read"),
    ("S 0 1 2 2 0\nX 32 1 0 0\n", "line 2: refusal 32 needs a cell with a label, and no stage is left"),
    ("S 0 1 2 2 2\nX 34 1 256 0\n", "line 2: no UNION or JOIN of these tables makes more than 256 rows"),
    ("S 0 1 2 2 0\nX 35 1 0 0\n", "line 2: the last step leaves 0 stages, and 35 is another refusal"),
    ("S 0 1 2 2 2\nX 35 1 2 0\n", "line 2: the last table has no row 2, column 0"),
    ("X 11 0\nX 11 0\n", "line 2: it stands behind the refusal, which ends the output"),
]

# Commands that run as processes in a folder with the files TEXT, CONTAINER, OUTPUT and LATIN and the folder FOLDER: the words, the file
# for standard input, the exit status and the line on standard error.
COMMANDS = [
    ("container", None, 2, "container: there is no command; -h prints help"),
    ("container brew", None, 2, "container: 'brew' is no command; -h prints help"),
    ("container --fast", None, 2, "container: '--fast' is no option; -h prints help"),
    ("container make TEXT", None, 2, "container: 'make' has 2 words behind it and not 1; -h prints help"),
    ("container make MISSING OUT", None, 2, "container: MISSING: No such file or directory"),
    ("container make FOLDER OUT", None, 2, "container: FOLDER: Is a directory"),
    ("container make LATIN OUT", None, 2, "container: LATIN:1: byte 2 is not UTF-8, so this is no text"),
    ("container make /dev/zero OUT", None, 2, "container: /dev/zero: it has more than 4,194,304 bytes"),
    ("container make TEXT TEXT", None, 2, "container: TEXT: File exists"),
    ("container make TEXT TEXT/OUT", None, 2, "container: TEXT/OUT: Not a directory"),
    ("container make CONTAINER OUT", None, 2, "container: CONTAINER:1: the character U+0002 stands outside a comment"),
    ("container verify TEXT MISSING", None, 2, "container: MISSING: No such file or directory"),
    ("container expect TEXT", None, 2, "container: TEXT:1: a has no answer"),
    ("container show MISSING", None, 2, "container: MISSING: No such file or directory"),
    ("container show FOLDER", None, 2, "container: FOLDER: Is a directory"),
    ("container show /dev/zero", None, 2, "container: /dev/zero: it has more than 131,072 bytes, so it is no container"),
    ("container show CONTAINER /dev/zero", None, 2, "container: /dev/zero: it has more than 131,072 bytes, so it is no overlay"),
    ("container show CONTAINER MISSING", None, 2, "container: MISSING: No such file or directory"),
    ("container show a b c d e f", None, 2, "container: 'show' has 1 or 2 or 3 or 4 or 5 words behind it and not 6; -h prints help"),
    ("container label T(cut1,cut4)", None, 2, "container: in 'T(cut1,cut4)' cut stands twice"),
    ("container label 0", None, 2, f"container: '0' {LABEL}"),
    ("explain --fast", "OUTPUT", 2, "explain: '--fast' is no option; -h prints help"),
    ("explain CONTAINER OUTPUT", "OUTPUT", 2, "explain: there is one word, the container's file, and not 2; -h prints help"),
    ("explain MISSING", "OUTPUT", 2, "explain: MISSING: No such file or directory"),
    ("explain FOLDER", "OUTPUT", 2, "explain: FOLDER: Is a directory"),
    ("explain", "FOLDER", 2, "explain: standard input: Is a directory"),
    ("explain", "/dev/zero", 1, "explain: standard input has more than 65,536 bytes, and the monitor prints less"),
    ("explain", "CONTAINER", 1, "explain: line 1: '\\x02\\x00\\x12\\x00\\x00\\x00 \\x00\\x00\\x002\\x00\\x00\\x004\\x00\\x00\\x00\\x01\\x00..' is no line"),
    (
        "explain TEXT",
        "OUTPUT",
        1,
        "explain: line 1: it is the line of step 0, and by the container refusal 11 at 0 stands here:"
        " the output was changed, is not that of TEXT without overlays, or is misread by this script",
    ),
    ("explain --overlay", "OUTPUT", 2, "explain: '--overlay' has a file behind it; -h prints help"),
    ("explain --overlay --overlay CONTAINER", "OUTPUT", 2, "explain: '--overlay' has a file behind it; -h prints help"),
    ("explain CONTAINER --overlay", "OUTPUT", 2, "explain: '--overlay' has a file behind it; -h prints help"),
    ("explain --overlay TEXT", "OUTPUT", 2, "explain: an overlay is of a container, and no container is named; -h prints help"),
    ("explain" + " --overlay TEXT" * 5 + " CONTAINER", "OUTPUT", 2, "explain: there are at most 4 overlays, and not 5; -h prints help"),
    ("explain --overlay MISSING CONTAINER", "OUTPUT", 2, "explain: MISSING: No such file or directory"),
    ("explain --overlay FOLDER CONTAINER", "OUTPUT", 2, "explain: FOLDER: Is a directory"),
    ("explain --overlays TEXT CONTAINER", "OUTPUT", 2, "explain: '--overlays' is no option; -h prints help"),
    (
        "explain --overlay CONTAINER CONTAINER",
        "OUTPUT",
        1,
        "explain: line 1: it is the line of step 0, and by the container refusal 21 at 0 stands here:"
        " the output was changed, is not that of CONTAINER with 1 overlay, or is misread by this script",
    ),
    ("explain --overlay /dev/zero CONTAINER", "OUTPUT", 1, None),
    ("explain /dev/zero", "OUTPUT", 1, None),
    ("draws", None, 2, "draws: there are two words, COUNT and SCALE, and not 0; -h prints help"),
    ("draws 5", None, 2, "draws: there are two words, COUNT and SCALE, and not 1; -h prints help"),
    ("draws 5 3 1", None, 2, "draws: there are two words, COUNT and SCALE, and not 3; -h prints help"),
    ("draws --fast 3", None, 2, "draws: '--fast' is no option; -h prints help"),
    ("draws 5 -3", None, 2, "draws: '-3' is no option; -h prints help"),
    ("draws x 3", None, 2, f"draws: 'x' is not a number; {NUMBER}; -h prints help"),
    ("draws 1.5 3", None, 2, f"draws: '1.5' is not a number; {NUMBER}; -h prints help"),
    ("draws 0 3", None, 2, "draws: the count '0' is not between 1 and 16,128; -h prints help"),
    ("draws 16129 3", None, 2, "draws: the count '16129' is not between 1 and 16,128; -h prints help"),
    (f"draws {'9' * 40} 3", None, 2, f"draws: the count '{'9' * 40}' is not between 1 and 16,128; -h prints help"),
    ("draws 5 0", None, 2, f"draws: the scale '0' {SCALE}"),
    ("draws 5 0/3", None, 2, f"draws: the scale '0/3' {SCALE}"),
    ("draws 5 1/0", None, 2, f"draws: the scale '1/0' {SCALE}"),
    ("draws 5 0.000", None, 2, f"draws: the scale '0.000' {SCALE}"),
    ("draws 5 .5", None, 2, f"draws: the scale '.5' {SCALE}"),
    ("draws 5 1e3", None, 2, f"draws: the scale '1e3' {SCALE}"),
    ("draws 5 1/2/3", None, 2, f"draws: the scale '1/2/3' {SCALE}"),
    ("draws 5 1.5/2", None, 2, f"draws: the scale '1.5/2' {SCALE}"),
    ("draws 5 1000000000", None, 2, f"draws: the scale '1000000000' {SCALE}"),
    ("draws 5 1/1000000000", None, 2, f"draws: the scale '1/1000000000' {SCALE}"),
    ("draws 5 nan", None, 2, f"draws: the scale 'nan' {SCALE}"),
]
