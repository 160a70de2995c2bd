"""Containers that are refused, each with the sentence by which `explain CONTAINER` says why."""

# The lines of the plan, the lines of the tables, and the sentence.
STATE = [
    (
        ["SCAN 0", "GROUP 0 sum 1"],
        ["table 2", "repeat 12: 1 5:A(count,sum,10)", "repeat 4: 2 5:A(count,sum,10)"],
        "Step 1, group 1, first row: row 12 of table 0, has 4 sheets; A(count,sum,10) asks for 10.",
    ),
    (
        ["SCAN 0", "GROUP 0 avg 1"],
        ["table 2", "repeat 12: 1 5:A(count,sum,10)"],
        "Step 1, group 0, first row: row 0 of table 0, has 12 sheets; avg is not among count, sum (A(count,sum,10)).",
    ),
    (
        ["SCAN 0", "GROUP 0 avg 1"],
        ["table 2", "repeat 4: 1 5:A(count,sum,10)"],
        "has 4 sheets; avg is not among count, sum (A(count,sum,10)), and A(count,sum,10) asks for 10.",
    ),
    (
        ["SCAN 0", "SCAN 1", "JOIN 0 0", "FILTER 0 = 2", "GROUP 2 sum 1"],
        ["table 2", "1 5:A(sum,3)", "2 6:A(sum,3)", "2 7:A(sum,3)", "table 2", "1 9", "2 9"],
        "Step 4, group 0, first row: row 1 of table 0 joined with row 1 of table 1, has 2 sheets; A(sum,3) asks for 3.",
    ),
    (
        ["SCAN 0", "SCAN 1", "UNION", "GROUP sum 0"],
        ["table 1", "table 1", "5:A(sum,2)"],
        "Step 3, group 0, first row: row 0 of table 1, has 1 sheet; A(sum,2) asks for 2.",
    ),
    (
        ["SCAN 0", "SCAN 0", "UNION", "GROUP 0 sum 1"],
        ["table 2", "repeat 10: 7 5:A(sum,20)"],
        "Step 3, group 0, first row: row 0 of table 0, has 10 sheets in 20 rows; A(sum,20) asks for 20.",
    ),
    (
        ["SCAN 0", "SCAN 1", "JOIN 0 0", "GROUP 0 sum 1"],
        ["table 2", "1 5:A(sum,2)", "table 2", "1 8", "1 9"],
        "first row: row 0 of table 0 joined with row 0 of table 1, has 1 sheet in 2 rows; A(sum,2) asks for 2.",
    ),
    (
        ["SCAN 0", "GROUP 0 1 max 2", "KEEP 0 2", "SCAN 1", "KEEP 1 2", "UNION", "GROUP 0 sum 1"],
        ["table 3", "7 1 5:A(sum,3)", "7 1 6:A(sum,3)", "table 3 sheets 0", "1 7 5:A(sum,3)", "1 7 6:A(sum,3)"],
        "Step 6, group 0, first row: group 0 of step 1, has 2 sheets in 3 rows; A(sum,3) asks for 3.",
    ),
    (
        ["SCAN 0", "APPLY 0 cut 3"],
        ["table 1", "12345:T(cut3)"],
        "labelled T(cut3): T(cut3) asks for an APPLY of cut by at least 3 digits. KEEP drops the column where it is not to be published.",
    ),
    (
        ["SCAN 0", "APPLY 0 add 1", "KEEP 1"],
        ["table 1", "12345:T(cut3,band)"],
        "Step 1, APPLY of add 1 to column 0, made it of row 0, column 0 of table 0: add is not among cut, band (T(cut3,band)).",
    ),
    (
        ["SCAN 0", "APPLY 0 cut 3", "KEEP 1"],
        ["table 1", "12345:T(cut3)+A(sum,2)"],
        "T is gone; A(sum,2) asks for a GROUP with sum over at least 2 sheets.",
    ),
    # 31: a label left on a count, too few digits cut, a raw column
    (
        ["SCAN 0", "GROUP 0 count 1", "FILTER 1 >= 2"],
        ["table 2", "1 5:A(count,3)", "1 6:A(count,3)"],
        "Step 1, group 0, first row: row 0 of table 0, has 2 sheets; A(count,3) asks for 3.",
    ),
    (
        ["SCAN 0", "APPLY 0 cut 2", "GROUP 1 count 0"],
        ["table 1", "12345:T(cut3)"],
        "Step 1, APPLY of cut 2 to column 0, made it of row 0, column 0 of table 0: it cut 2 digits off, and T(cut3) asks for at least 3.",
    ),
    (
        ["SCAN 0", "FILTER 0 = 5"],
        ["table 1", "5:T(band)"],
        "It is row 0, column 0 of table 0 as the container has it, labelled T(band): T(band) asks for an APPLY of band.",
    ),
    # 32
    (
        ["SCAN 0", "GROUP sum 0"],
        ["table 1", "5:T(cut3,band)+A(sum,2)"],
        "labelled T(cut3,band)+A(sum,2): first APPLY cut by at least 3 digits or APPLY band, then GROUP with the column that the APPLY appends.",
    ),
    (
        ["SCAN 0", "APPLY 0 cut 1", "GROUP sum 1"],
        ["table 1", "5:T(cut2)+A(sum,2)"],
        "it cut 1 digit off, and T(cut2) asks for at least 2. The label is T(cut2)+A(sum,2): first APPLY cut by at least 2 digits, then GROUP",
    ),
    (
        ["SCAN 0", "APPLY 0 add 1"],
        ["table 1", "5:H"],
        "labelled H: no step removes H, so no APPLY, GROUP or NOISE may use the cell, and it is never released.",
    ),
    (
        ["SCAN 0", "NOISE 0"],
        ["table 1", "5:T(cut3)+A(count,sum,2)+N(noise)"],
        "first APPLY cut by at least 3 digits, then GROUP with count or sum over at least 2 sheets, then NOISE on the column that the GROUP appends.",
    ),
    (
        ["SCAN 0", "NOISE 0"],
        ["table 1", "5:T(add)+N(noise)"],
        "labelled T(add)+N(noise): first APPLY add, then NOISE on the column that the APPLY appends.",
    ),
    (
        ["SCAN 0", "NOISE 0"],
        ["table 1", "5:A(sum,2)+N(noise)"],
        "labelled A(sum,2)+N(noise): first GROUP with sum over at least 2 sheets, then NOISE on the column that the GROUP appends.",
    ),
    (
        ["SCAN 0", "NOISE 0"],
        ["table 1", "5:T(add)+A(9)"],
        "labelled T(add)+A(9): A(9) allows nothing, so no step removes it, and neither the cell nor what is made of it is released.",
    ),
    (
        ["SCAN 0", "GROUP 0 sum 1", "NOISE 1"],
        ["table 2", "1 5:A(sum,3)+N(noise)", "1 6:A(sum,3)+N(noise)"],
        "has 2 sheets; A(sum,3) asks for 3. The label is A(sum,3)+N(noise): first GROUP with sum over at least 3 sheets, then NOISE on the column",
    ),
    (
        ["SCAN 0", "NOISE 0"],
        ["table 1", "5:H+N(noise)"],
        "labelled H+N(noise): no step removes H, so no APPLY, GROUP or NOISE may use the cell, and it is never released.",
    ),
    # 35 and 31: an N
    (
        ["SCAN 0"],
        ["table 1", "5:N(noise)"],
        "labelled N(noise): N(noise) asks for a NOISE. KEEP drops the column where it is not to be published.",
    ),
    (
        ["SCAN 0", "GROUP sum 0"],
        ["table 1", "5:A(sum,2)+N(noise)", "6:A(sum,2)+N(noise)"],
        "has 2 sheets; A is gone; N(noise) asks for a NOISE.",
    ),
    (
        ["SCAN 0", "FILTER 0 = 5"],
        ["table 1", "5:N()"],
        "labelled N(): N() allows nothing, so no step removes it, and neither the cell nor what is made of it is released.",
    ),
    # 37, without draws
    (
        ["SCAN 0", "NOISE 1"],
        ["table 2", "1 10", "2 20", "3 30"],
        "is refused (37): no draw is left for row 0, column 1 of the table it reads.\n"
        "From step 1 on the plan needs at least 3 draws, one for each row that a NOISE reads, and none were left."
        " Run it again with at least 3 new draws, and never with old ones.",
    ),
    (
        ["SCAN 0", "NOISE 1", "GROUP 0 sum 2", "NOISE 1"],
        ["table 2", "1 10", "2 20", "1 30"],
        "From step 1 on the plan needs at least 5 draws, one for each row that a NOISE reads, and none were left."
        " Run it again with at least 5 new draws, and never with old ones.",
    ),
    (
        ["SCAN 0", "NOISE 0"],
        ["table 1", "1", "2:H"],
        "From step 1 on the plan needs at least 2 draws, one for each row that a NOISE reads, and none were left.",
    ),
    # 33, 34, 36
    (
        ["SCAN 0", "APPLY 0 add column 1"],
        ["table 2", "5 6:A(sum,2)"],
        "It is row 0, column 1 of table 0 as the container has it, labelled A(sum,2): A(sum,2) asks for a GROUP with sum over at least 2 sheets.",
    ),
    (
        ["SCAN 0", "SCAN 0", "UNION"],
        ["table 1", "repeat 200: 5"],
        "The left table has 200 rows and the right one 200 rows; the step would make 400 rows.",
    ),
    (
        ["SCAN 0", "GROUP sum 0"],
        ["table 1", "140737488355327", "1"],
        "Step 1, GROUP of all rows, sum of column 0, made it.",
    ),
]

# Containers of rule year 1; of the same under rule year 0 no sentence speaks of a rule year.
FLOOR = "The container's rule year 1 reads each minimum below ten as ten."
YEAR_1 = [
    (
        ["SCAN 0", "GROUP 0 sum 1"],
        ["table 2", "repeat 12: 1 5:A(count,sum,3)", "repeat 4: 2 5:A(count,sum,3)"],
        "Step 1, group 1, first row: row 12 of table 0, has 4 sheets; A(count,sum,10) asks for 10. The label of row 12, column 1 of table 0 is"
        f" A(count,sum,3) in the container. {FLOOR}\nNothing",
    ),
    (
        ["SCAN 0", "SCAN 0", "UNION", "GROUP 0 sum 1"],
        ["table 2", "repeat 9: 7 5:A(sum,9)"],
        "has 9 sheets in 18 rows; A(sum,10) asks for 10. The label of row 0, column 1 of table 0 is A(sum,9) in the container."
        f" {FLOOR}\nNothing",
    ),
    (
        ["SCAN 0", "SCAN 1", "UNION", "GROUP sum 0"],
        ["table 1", "repeat 5: 1", "table 1", "5:A(sum,2)", "6:A(sum,20)"],
        f"has 7 sheets; A(sum,10) asks for 10. The label of row 0, column 0 of table 1 is A(sum,2) in the container. {FLOOR}\nNothing",
    ),
    (
        ["SCAN 0", "SCAN 1", "UNION", "GROUP sum 0"],
        ["table 1", "repeat 5: 1", "table 1", "5:A(sum,20)", "6:A(sum,2)"],
        "Step 3, group 0, first row: row 0 of table 0, has 7 sheets; A(sum,20) asks for 20.\nNothing",
    ),
    (
        ["SCAN 0", "GROUP sum 0"],
        ["table 1", "repeat 9: 5:A(sum,10)"],
        "Step 1, group 0, first row: row 0 of table 0, has 9 sheets; A(sum,10) asks for 10.\nNothing",
    ),
    (
        ["SCAN 0", "GROUP 0 1 max 2", "GROUP 0 sum 2"],
        ["table 3", "7 0 5:A(sum,3)", "7 0 6:A(sum,30)"],
        "Step 2, group 0, first row: group 0 of step 1, has 1 sheet; A(sum,30) asks for 30.\nNothing",
    ),
    (
        ["SCAN 0", "GROUP avg 0"],
        ["table 1", "repeat 4: 5:A(count,sum,3)"],
        "avg is not among count, sum (A(count,sum,10)), and A(count,sum,10) asks for 10. The label of row 0, column 0 of table 0 is"
        f" A(count,sum,3) in the container. {FLOOR}\nNothing",
    ),
    (
        ["SCAN 0", "GROUP sum 0"],
        ["table 1", "repeat 10: 5:A(sum,2)+N(noise)"],
        "has 10 sheets; A is gone; N(noise) asks for a NOISE.\nNothing",
    ),
    (
        ["SCAN 0", "APPLY 0 cut 2", "KEEP 1"],
        ["table 1", "12345:T(cut3)+A(sum,2)"],
        "made it of row 0, column 0 of table 0: it cut 2 digits off, and T(cut3) asks for at least 3.\nNothing",
    ),
    (
        ["SCAN 0", "APPLY 0 cut 3", "KEEP 1"],
        ["table 1", "12345:T(cut3)+A(sum,2)"],
        "T is gone; A(sum,10) asks for a GROUP with sum over at least 10 sheets. The label of row 0, column 0 of table 0 is T(cut3)+A(sum,2) in the"
        f" container. {FLOOR}\nNothing",
    ),
    (
        ["SCAN 0"],
        ["table 1", "5:A(sum,9)"],
        "It is row 0, column 0 of table 0 under rule year 1, labelled A(sum,10): A(sum,10) asks for a GROUP with sum over at least 10 sheets. The label"
        f" of row 0, column 0 of table 0 is A(sum,9) in the container. {FLOOR} KEEP drops the column where it is not to be published.",
    ),
    (
        ["SCAN 0"],
        ["table 1", "5:A(sum,10)"],
        "It is row 0, column 0 of table 0 as the container has it, labelled A(sum,10): A(sum,10) asks for a GROUP with sum over at least 10 sheets."
        " KEEP drops",
    ),
    (
        ["SCAN 0"],
        ["table 1", "5:T(band)"],
        "It is row 0, column 0 of table 0 as the container has it, labelled T(band): T(band) asks for an APPLY of band. KEEP drops",
    ),
    (
        ["SCAN 0", "APPLY 0 add column 1"],
        ["table 2", "5 6:A(sum,2)"],
        "under rule year 1, labelled A(sum,10): A(sum,10) asks for a GROUP with sum over at least 10 sheets. The label of row 0, column 1 of table 0"
        f" is A(sum,2) in the container. {FLOOR}\nNothing",
    ),
    (
        ["SCAN 0", "NOISE 0"],
        ["table 1", "5:T(cut3)+A(count,sum,2)+N(noise)"],
        "first APPLY cut by at least 3 digits, then GROUP with count or sum over at least 10 sheets, then NOISE on the column that the GROUP appends."
        f" The label of row 0, column 0 of table 0 is T(cut3)+A(count,sum,2)+N(noise) in the container. {FLOOR}\nNothing",
    ),
]

# The lines of the plan, the lines of the tables, an output that the draws make possible, and the sentence.
DRAWN = [
    (
        ["SCAN 0", "NOISE 0", "NOISE 0", "KEEP 1 2", "NOISE 0"],
        ["table 1", "1", "2", "3"],
        ["S 0 1 3 1 0", "S 1 8 3 2 0", "X 37 2 1 0"],
        "From step 2 on the plan needs at least 6 draws, one for each row that a NOISE reads, and 1 was left."
        " Run it again with at least 9 new draws, and never with old ones.",
    ),
    (
        ["SCAN 0", "NOISE 0", "FILTER 1 > 0", "NOISE 0"],
        ["table 1", "1", "2", "3"],
        ["S 0 1 3 1 0", "X 37 1 2 0"],
        "needs at least 3 draws, one for each row that a NOISE reads, and 2 were left. Run it again with at least 3 new draws,",
    ),
    (
        ["SCAN 0", "NOISE 0", "FILTER 1 > 0", "NOISE 0"],
        ["table 1", "1", "2", "3"],
        ["S 0 1 3 1 0", "S 1 8 3 2 0", "S 2 4 2 2 0", "X 37 3 1 0"],
        "Step 3, NOISE on column 0 is refused (37): no draw is left for row 1, column 0 of what it reads.\n"
        "Values that NOISE made decide the rows of step 2, so from there on the rows are not compared.\n"
        "Cause: a NOISE uses a draw for each row that it reads, and the program lent fewer. Run it again with new draws, and never with old ones.",
    ),
    (
        ["SCAN 0", "NOISE 0", "KEEP 1"],
        ["table 1", "5:N()"],
        ["S 0 1 1 1 1", "S 1 8 1 2 2", "S 2 5 1 1 1", "X 35 3 0 0"],
        "Step 1, NOISE on column 0, made it of row 0, column 0 of table 0: N() allows nothing, so no step removes it,",
    ),
    (
        ["SCAN 0", "NOISE 0", "APPLY 1 add 1"],
        ["table 1", "5"],
        ["S 0 1 1 1 0", "S 1 8 1 2 0", "S 2 6 1 3 0", "X 36 3 0 1"],
        "Step 1, NOISE on column 0, made it.",
    ),
    (
        ["SCAN 0", "NOISE 0", "APPLY 1 add 1"],
        ["table 1", "5"],
        ["S 0 1 1 1 0", "S 1 8 1 2 0", "S 2 6 1 3 0", "X 36 3 0 2"],
        "Step 2, APPLY of add 1 to column 1, made it.",
    ),
    (
        ["SCAN 0", "NOISE 1", "KEEP 0 2"],
        ["table 2", "1 10:N(noise)"],
        ["S 0 1 1 2 1", "S 1 8 1 3 1", "S 2 5 1 2 0", "R 1 -4"],
        "The release is whole: 1 row of 2 columns. The draws decide values of column 1, which are not compared.",
    ),
    (
        ["SCAN 0", "NOISE 0", "APPLY 1 cut 1", "GROUP sum 1", "NOISE 0"],
        ["table 1", "5", "6"],
        ["S 0 1 2 1 0", "S 1 8 2 2 0", "S 2 6 2 3 0", "S 3 7 1 1 0", "S 4 8 1 2 0", "R 9 10"],
        "The release is whole: 1 row of 2 columns. The draws decide values of columns 0, 1, which are not compared.",
    ),
    (
        ["SCAN 0", "NOISE 0", "GROUP count 1"],
        ["table 1", "5", "6"],
        ["S 0 1 2 1 0", "S 1 8 2 2 0", "S 2 7 1 1 0", "R 2"],
        "The release is whole: 1 row of 1 column.\n",
    ),
    (
        ["SCAN 0", "NOISE 0", "FILTER 1 > 5", "KEEP 0"],
        ["table 1", "5", "6"],
        ["S 0 1 2 1 0", "S 1 8 2 2 0", "S 2 4 1 2 0", "S 3 5 1 1 0", "R 6"],
        "These lines fit one another and the plan: 1 row of 1 column. Values that NOISE made decide the rows of step 2, so from there on",
    ),
    (
        ["SCAN 0", "NOISE 0", "GROUP 1 count 0"],
        ["table 1", "5", "6"],
        ["S 0 1 2 1 0", "S 1 8 2 2 0", "S 2 7 2 2 0", "X 36 3 1 0"],
        "The release is refused (36): row 1, column 0 of the last table is OVER, a result outside the range of values.\n"
        "Values that NOISE made decide the rows of step 2, so from there on the rows are not compared.\nCauses: a sum,",
    ),
    (
        ["SCAN 0", "NOISE 0", "SCAN 0", "JOIN 1 0"],
        ["table 1", "5", "6"],
        ["S 0 1 2 1 0", "S 1 8 2 2 0", "S 2 1 2 1 0", "S 3 3 1 2 0", "R 5 6"],
        "These lines fit one another and the plan: 1 row of 2 columns. Values that NOISE made decide the rows of step 3,",
    ),
    (
        ["SCAN 0", "NOISE 0"],
        ["table 1", "5"],
        ["S 0 1 1 1 0", "S 1 8 1 2 0", "X 51 2 0 0"],
        "The text has more bytes than the program lent; 35,097 are enough for every text.",
    ),
]

# Releases that are refused with 51, because the text has no room.
NO_ROOM = [
    (
        ["SCAN 0"],
        ["table 1"],
        "The text has 4 bytes, and the program lent fewer; 35,097 are enough for every text.",
    ),
    (
        ["SCAN 0", "APPLY 0 sub 10"],
        ["table 1", "0", "10", "9"],
        "The text has 26 bytes, and the program lent fewer; 35,097 are enough for every text.",
    ),
    (
        ["SCAN 0"],
        ["table 8", "repeat 256:" + " -140737488355328" * 8],
        "The text has 35,097 bytes, and the program lent fewer; 35,097 are enough for every text.",
    ),
]

# Plans and tables that the input checks refuse.
INPUT = [
    (["SCAN 2"], ["table 1", "table 1"], "Step 0, SCAN of table 2: table 2 does not exist: the container has 2 tables, 0 to 1."),
    (
        ["SCAN 0", "SCAN 1", "UNION"],
        ["table 2", "table 3"],
        "Step 2, UNION: the left table has 2 columns and the right one 3 columns, and UNION needs equal widths.",
    ),
    (["SCAN 0", "SCAN 1", "JOIN 2 0"], ["table 2", "table 3"], "column 2 does not exist: the left table has 2 columns, 0 to 1."),
    (["SCAN 0", "SCAN 1", "JOIN 0 3"], ["table 2", "table 3"], "column 3 does not exist: the right table has 3 columns, 0 to 2."),
    (
        ["SCAN 0", "SCAN 0", "JOIN 0 0"],
        ["table 5"],
        "it would make 9 columns, 5 of the left table and 4 of the right one, and 8 are the most.",
    ),
    (["SCAN 0", "KEEP 0 4"], ["table 2"], "column 4 does not exist: the table that it reads has 2 columns, 0 to 1."),
    (["SCAN 0", "GROUP 0 sum 1"], ["table 1"], "column 1 does not exist: the table that it reads has 1 column, column 0."),
    (["SCAN 0", "APPLY 0 add column 7"], ["table 2"], "column 7 does not exist: the table that it reads has 2 columns, 0 to 1."),
    (["SCAN 0", "APPLY 0 add 1"], ["table 8"], "Step 1, APPLY of add 1 to column 0: it would make 9 columns, and 8 are the most."),
    (["SCAN 0", "SCAN 0", "SCAN 0", "SCAN 0"], ["table 1"], "Step 3, SCAN of table 0: it is a SCAN onto 3 tables, and 3 are the most."),
    (["FILTER 0 = 5"], ["table 1"], "it needs 1 table, and the steps before it leave none."),
    (["SCAN 0", "SCAN 0"], ["table 1"], "The plan ends and leaves 2 tables, and it must leave one."),
    (["STEP kind=4 b=6"], ["table 1"], "Step 0, FILTER, a wrong record: comparison 6 does not exist; they are 0 to 5."),
    (["SCAN 0 with spare=1"], ["table 1"], "Step 0, SCAN, a wrong record: one of its bytes 5 to 7 is not zero."),
    (["FILTER 0 = 5 with c=2"], ["table 1"], "c is 2, and it is 0 for the constant or 1 for a column."),
    (
        ["SCAN 0"],
        ["table 1", "table 1 sheets 254"],
        "Table 1: its byte 1 is 255, for sheet numbers in column 254, and column 254 does not exist: the table has 1 column, column 0.",
    ),
    (["SCAN 0"], ["table 2 sheets 1", "5 6", "5 -1"], "Table 0, row 1, column 1 is a sheet number, and it is negative."),
    (["SCAN 0"], ["table 1 sheets 0", "1:T(cut3)"], "Table 0, row 0, column 0 is a sheet number, and it is not clear, with the label T(cut3)."),
    (["SCAN 0"], ["table 1 sheets 0", "-1:H"], "is a sheet number, and it is negative and not clear, with the label H."),
    (["SCAN 0"], ["table 1", "5:00000001"], "has the label 00000001: it has a group minimum, 1, and A (bit 29) is absent."),
    (["SCAN 0"], ["table 1", "5:20030000"], "has the label 20030000: A is present with a group minimum of 0, and this is 2 to 1,023.\nNothing"),
    (
        ["SCAN 0"],
        ["table 1", "5:20000001"],
        "has the label 20000001: A is present with a group minimum of 1, and this is 2 to 1,023.\n"
        "The program convert raises each minimum of 1 in this container to 2.\nNothing",
    ),
    (
        ["SCAN 0"],
        ["table 2", "5:F4820401 140737488355328"],
        "The program convert raises each minimum of 1 to 2 where nothing else is wrong, and it refuses this container with 14 at byte 50: table 0,"
        " row 0, column 1 has a value outside -140,737,488,355,328 .. 140,737,488,355,327.\nNothing",
    ),
    (
        ["SCAN 0", "SCAN 0"],
        ["table 1", "5:20020001"],
        "and it refuses this container with 18 at byte 50: the plan ends and leaves 2 tables, and it must leave one.\nNothing",
    ),
    (
        ["SCAN 0"],
        ["table 1 sheets 0", "5:20020001"],
        "and it refuses this container with 20 at byte 34: table 0, row 0, column 0 is a sheet number, and it is not clear, with the label 20020001.",
    ),
    (
        ["SCAN 0"],
        ["table 1", "5:20420001"],
        "bits 22, 21, 15, 14 and 13 are zero, and here 22 is not; A is present with a group minimum of 1, and this is 2 to 1,023.\nNothing",
    ),
    (["SCAN 0"], ["table 1", "5:00000001", "6:20020001"], "it has a group minimum, 1, and A (bit 29) is absent.\nNothing"),
    (["SCAN 0"], ["table 1", "5:44000000"], "has the label 44000000: it allows cut with 0 digits, and these are 1 to 6."),
    (["SCAN 0"], ["table 1", "5:41000400"], "has the label 41000400: it has digits, 1, and cut (bit 26) is not allowed."),
    (["SCAN 0"], ["table 1", "5:01000000"], "has the label 01000000: it allows add at T, and T (bit 30) is absent."),
    (["SCAN 0"], ["table 1", "5:00020000"], "has the label 00020000: it allows sum at A, and A (bit 29) is absent."),
    (["SCAN 0"], ["table 1", "5:00800000"], "has the label 00800000: it allows noise at N, and N (bit 28) is absent."),
    (["SCAN 0"], ["table 1", "5:80402000"], "has the label 80402000: bits 22, 21, 15, 14 and 13 are zero, and here 22, 13 are not."),
]

# The lines of the plan, of the tables and of the overlays, and the sentence. First runs that end in a refusal because of the state.
OVERLAID = [
    (
        ["SCAN 0", "GROUP 0 sum 1"],
        ["table 2", "7 3:A(sum,2)", "7 5:A(sum,2)"],
        ["overlay", "labels", ". .", ". A(count,sum,3)"],
        "has 2 sheets; A(sum,3) asks for 3."
        " The label of row 1, column 1 of table 0 is composed of A(sum,2) in the container and A(count,sum,3) in overlay 0.\n",
    ),
    (
        ["SCAN 0", "GROUP 0 sum 1"],
        ["table 2", "7 3:A(sum,4)", "7 5:A(sum,4)"],
        ["overlay", "labels", ". .", ". A(sum,3)"],
        "Step 1, group 0, first row: row 0 of table 0, has 2 sheets; A(sum,4) asks for 4.\nNothing",
    ),
    (
        ["SCAN 0", "APPLY 0 cut 1", "GROUP sum 1"],
        ["table 1", "50:T(cut1)", "60:T(cut1)"],
        ["overlay", "labels clear", "overlay", "labels", "A(sum,5)", "A(sum,5)"],
        "A(sum,5) asks for 5. The label of row 0, column 0 of table 0 is composed of T(cut1) in the container and A(sum,5) in overlay 1.",
    ),
    (
        ["SCAN 0"],
        ["table 1", "5:A(sum,2)"],
        ["overlay", "labels", "T(add)", "overlay", "labels", "A(max,3)", "overlay", "labels", "N()", "overlay", "labels", "H"],
        "It is row 0, column 0 of table 0 under its overlays, labelled H+T(add)+A(3)+N(): no step removes H, so no APPLY, GROUP or NOISE may use"
        " the cell, and it is never released. The label of row 0, column 0 of table 0 is composed of A(sum,2) in the container, T(add) in overlay 0,"
        " A(max,3) in overlay 1, N() in overlay 2 and H in overlay 3. KEEP drops the column where it is not to be published.",
    ),
    (
        ["SCAN 0", "FILTER 0 > 4"],
        ["table 1", "5"],
        ["overlay", "labels", "T(band)"],
        "labelled T(band): T(band) asks for an APPLY of band. The label of row 0, column 0 of table 0 is T(band) in overlay 0; in the container the"
        " cell is clear.",
    ),
    (
        ["SCAN 0", "FILTER 0 > 4"],
        ["table 2", "5:H 6"],
        ["overlay", "labels", ". H"],
        "It is row 0, column 0 of table 0 as the container has it, labelled H: no step removes H,",
    ),
    (
        ["SCAN 1", "GROUP sum 0"],
        ["table 1", "5", "table 1", "6:A(sum,2)", "7"],
        ["overlay", "labels", "H", "labels", ".", "T(add,cut2)"],
        "It is row 1, column 0 of table 1 under its overlays, labelled T(add,cut2): first APPLY add or APPLY cut by at least 2 digits, then GROUP with"
        " the column that the APPLY appends. The label of row 1, column 0 of table 1 is T(add,cut2) in overlay 0; in the container the cell is clear.",
    ),
    (
        ["SCAN 0", "APPLY 0 add column 1"],
        ["table 2", "5 6"],
        ["overlay", "overlay", "labels", ". N(noise)", "overlay", "labels", ". N()"],
        "Overlays 0 and 3 are empty files, and so no overlays.\nStep 0, SCAN of table 0: 1 row of 2 columns, 1 stage left.\n",
    ),
    (
        ["SCAN 0", "APPLY 0 add column 1"],
        ["table 2", "5 6"],
        ["overlay", "overlay", "labels", ". N(noise)", "overlay", "labels", ". N()", "overlay", "labels clear"],
        "Overlay 0 is an empty file, and so no overlay.\nStep 0,",
    ),
    (
        ["SCAN 0", "APPLY 0 add column 1"],
        ["table 2", "5 6"],
        ["overlay", "overlay", "labels", ". N(noise)", "overlay", "labels", ". N()"],
        "labelled N(): N() allows nothing, so no step removes it, and neither the cell nor what is made of it is released. The label of row 0,"
        " column 1 of table 0 is composed of N(noise) in overlay 1 and N() in overlay 2; in the container the cell is clear.",
    ),
    (
        ["SCAN 0", "NOISE 0"],
        ["table 1", "5:N(noise)"],
        ["overlay", "labels", "A(sum,2)"],
        "labelled A(sum,2)+N(noise): first GROUP with sum over at least 2 sheets, then NOISE on the column that the GROUP appends. The label of row 0,"
        " column 0 of table 0 is composed of N(noise) in the container and A(sum,2) in overlay 0.",
    ),
]
# The same of containers of rule year 1.
OVERLAID_YEAR_1 = [
    (
        ["SCAN 0", "GROUP 0 sum 1"],
        ["table 2", "7 3:A(sum,2)", "7 5:A(sum,2)"],
        ["overlay", "labels", ". .", ". A(count,sum,3)"],
        f"has 2 sheets; A(sum,10) asks for 10. The label of row 0, column 1 of table 0 is A(sum,2) in the container. {FLOOR}\nNothing",
    ),
    (
        ["SCAN 0", "GROUP 0 sum 1"],
        ["table 2", "7 3:A(sum,2)", "7 5:A(sum,2)"],
        ["overlay", "labels", ". A(count,sum,3)", ". ."],
        "has 2 sheets; A(sum,10) asks for 10. The label of row 0, column 1 of table 0 is composed of A(sum,2) in the container and A(count,sum,3) in"
        f" overlay 0. {FLOOR}\nNothing",
    ),
    (
        ["SCAN 0", "GROUP 0 sum 1"],
        ["table 2", "7 3:A(sum,2)", "7 5:A(sum,2)"],
        ["overlay", "labels", ". A(sum,10)", ". A(sum,10)"],
        "has 2 sheets; A(sum,10) asks for 10. The label of row 0, column 1 of table 0 is composed of A(sum,2) in the container and A(sum,10) in"
        " overlay 0.\nNothing",
    ),
    (
        ["SCAN 0", "GROUP sum 0"],
        ["table 1", "repeat 9: 5"],
        ["overlay", "overlay", "labels", "A(sum,2)", "repeat 8: ."],
        "has 9 sheets; A(sum,10) asks for 10. The label of row 0, column 0 of table 0 is A(sum,2) in overlay 1; in the container the cell is clear."
        f" {FLOOR}\nNothing",
    ),
    (
        ["SCAN 0"],
        ["table 1", "5:A(sum,2)"],
        ["overlay", "labels", "T(add)", "overlay", "labels", "A(max,3)"],
        "It is row 0, column 0 of table 0 under its overlays and rule year 1, labelled T(add)+A(10): T(add) asks for an APPLY of add. The label of row 0,"
        f" column 0 of table 0 is composed of A(sum,2) in the container, T(add) in overlay 0 and A(max,3) in overlay 1. {FLOOR} KEEP drops",
    ),
]
# Overlays that are refused.
OVERLAYS_REFUSED = [
    (["overlay", "raw", "02"], "An overlay is refused (21) at its byte 0: its length, its count, its directory, or the header or length of a part"),
    (["overlay", "raw", "02"], "Overlay 0: it has 1 byte, and its count alone needs 2."),
    (["overlay", "raw", "02 00"], "Overlay 0: it has 2 bytes, and the directory for 2 tables ends at 18."),
    (["overlay", "raw", "zeros 65537"], "Overlay 0: it has more than 65,536 bytes."),
    (["overlay", "labels", "H"], "Overlay 0: its count is 1, and the container has 2 tables."),
    (["overlay", "overlay", "labels", "H"], "Overlay 1: its count is 1, and the container has 2 tables."),
    (
        ["overlay", "labels", "H", "labels clear", "damage", "offset 0 17"],
        "An overlay is refused (21) at its byte 2: its length, its count, its directory, or the header or length of a part does not fit the container.\n"
        "Overlay 0: the labels of table 0 are said to begin at 17, and the directory ends at 18.",
    ),
    (
        ["overlay", "labels", "H", "labels clear", "damage", "length 0 9"],
        "Overlay 0: the labels of table 1 are said to begin at 26, and those of table 0 end at 27.",
    ),
    (["overlay", "labels", "H", "labels clear", "damage", "append 00"], "Overlay 0: the labels of table 1 are said to end at 38, and the overlay ends at 39."),
    (["overlay", "labels", "labels clear"], "Overlay 0: the labels of table 0 have 4 bytes, and 1 row of 1 column need 8."),
    (
        ["overlay", "labels clear", "labels clear", "damage", "columns 0 2"],
        "Overlay 0: the labels of table 0 have another header than the table: 2 and not 1 for the columns.",
    ),
    (
        ["overlay", "labels clear", "labels clear", "damage", "bytes 27 00", "rows 1 256"],
        "Overlay 0: the labels of table 1 have another header than the table: 0 and not 1 for byte 1, 256 and not 1 for the rows.",
    ),
    (
        ["overlay", "labels", "00000001", "labels clear"],
        "An overlay is refused (22) at its byte 22: a label is ill-formed, or not zero in a column of sheet numbers.\n"
        "Overlay 0: table 0, row 0, column 0 has the label 00000001: it has a group minimum, 1, and A (bit 29) is absent.",
    ),
    (
        ["overlay", "labels", "30820001", "labels clear"],
        "Overlay 0: table 0, row 0, column 0 has the label 30820001: A is present with a group minimum of 1, and this is 2 to 1,023.\n"
        "Overlays are not converted: have this one delivered anew.\nNothing",
    ),
    (
        ["overlay", "overlay", "labels clear", "labels", "20020001 ."],
        "Overlay 1: table 1, row 0, column 0 has the label 20020001: A is present with a group minimum of 1, and this is 2 to 1,023.\n"
        "Overlays are not converted: have this one delivered anew.\nNothing",
    ),
    (
        ["overlay", "labels", "20000000", "labels clear"],
        "Overlay 0: table 0, row 0, column 0 has the label 20000000: A is present with a group minimum of 0, and this is 2 to 1,023.\nNothing",
    ),
    (
        ["overlay", "labels clear", "labels", "T(add) ."],
        "Overlay 0: table 1, row 0, column 0 is a sheet number, and its label here is T(add) and not zero.",
    ),
]
