// The header in C++: the functions on a container without bytes, slices that are too short, the number of finished steps over slices that were
// used before, what work memory holds afterwards, draws of several lengths, overlays that are refused and overlays in every order, the text of a
// release in slices of several lengths, containers under every rule year, and conversions into slices of several lengths. Takes place in the folder of the trials' containers, whose
// names stand in ../args; those of the trials with draws are in ../../noise_trials, those of the trials with overlays in ../../overlay_trials, and
// those of the conversion in ../../convert.
#include <cilunovay.h>

#include <algorithm>
#include <array>
#include <cinttypes>
#include <cstdint>
#include <cstdio>
#include <fstream>
#include <string>
#include <vector>

// What output and text hold before a run; what work memory and trace hold before a fresh one.
enum { PATTERN = 0xA5, USED = 9 };

static std::vector<std::uint8_t> container(CILUNOVAY_CONTAINER + 1), text(CILUNOVAY_TEXT + 9);
static std::size_t length, draws_length;
static std::vector<std::int64_t> draws(CILUNOVAY_DRAWS), values(CILUNOVAY_WORK), output(CILUNOVAY_OUTPUT);
static std::vector<std::uint32_t> labels(CILUNOVAY_WORK), trace(CILUNOVAY_TRACE, USED);
static std::vector<std::uint64_t> marks(CILUNOVAY_MARKS);
static std::uint64_t answer[CILUNOVAY_ANSWER] = {9, 9, 9, 9};

// An overlay for each place, and the places in the order in which they are lent.
struct Overlay {
    std::vector<std::uint8_t> bytes = std::vector<std::uint8_t>(CILUNOVAY_OVERLAY + 1);
    std::size_t length = 0;
};
static Overlay overlays[CILUNOVAY_OVERLAYS];
static std::array<std::size_t, CILUNOVAY_OVERLAYS> order = {{0, 1, 2, 3}};

// Runs the container with the draws and the overlays, and with so many bytes for its text.
static std::uint32_t run(std::size_t room)
{
    std::fill(output.begin(), output.end(), PATTERN);
    std::fill(text.begin(), text.end(), PATTERN);
    const Overlay &first = overlays[order[0]], &second = overlays[order[1]], &third = overlays[order[2]], &fourth = overlays[order[3]];
    return cilunovay_run(container.data(), length, draws.data(), draws_length, first.bytes.data(), first.length, second.bytes.data(),
                         second.length, third.bytes.data(), third.length, fourth.bytes.data(), fourth.length, values.data(), values.size(),
                         labels.data(), labels.size(), marks.data(), marks.size(), output.data(), output.size(), trace.data(), trace.size(),
                         text.data(), room, answer, CILUNOVAY_ANSWER);
}

static bool read_file(const std::string &name, std::vector<std::uint8_t> &bytes, std::size_t &size)
{
    std::FILE *file = std::fopen(name.c_str(), "rb");

    if (file == nullptr)
        return false;
    size = std::fread(bytes.data(), 1, bytes.size(), file);
    std::fclose(file);
    return true;
}

static bool read(const std::string &name)
{
    return read_file(name, container, length);
}

// The overlays that stand beside a container.
static bool read_overlays(const std::string &name)
{
    for (int place = 0; place < CILUNOVAY_OVERLAYS; place++)
        if (!read_file(name + ".overlay" + std::to_string(place), overlays[place].bytes, overlays[place].length))
            return false;
    return true;
}

static void no_overlays()
{
    for (Overlay &overlay : overlays)
        overlay.length = 0;
}

static bool no_bytes()
{
    return cilunovay_check(container.data(), 0, answer, CILUNOVAY_CHECK_ANSWER) == CILUNOVAY_BAD_CONTAINER
           && answer[0] == CILUNOVAY_BAD_CONTAINER && answer[1] == 0 && answer[2] == 9;
}

// The file of a trial, whose run answers this number after so many finished steps; the trace holds the lines of earlier calls.
static bool finishes(const char *name, std::uint32_t number, std::size_t steps)
{
    return read(name) && run(CILUNOVAY_TEXT) == number && cilunovay_finished(container.data(), answer) == steps;
}

// The text of the rows in output.
static std::string text_of_rows(std::uint64_t rows, std::uint64_t columns)
{
    std::string whole;

    for (std::uint64_t column = 0; column < columns; column++)
        whole += (column ? ",c" : "c") + std::to_string(column);
    for (std::uint64_t at = 0; at < rows * columns; at++)
        whole += (at % columns ? "," : "\r\n") + std::to_string(output[at]);
    return whole + "\r\n";
}

// The slice begins with this, and holds behind it what it held before.
static bool holds(const std::string &whole)
{
    return std::equal(whole.begin(), whole.end(), text.begin())
           && std::all_of(text.begin() + whole.size(), text.end(), [](std::uint8_t byte) { return byte == PATTERN; });
}

static bool answers(std::uint64_t first, std::uint64_t second, std::uint64_t third, std::uint64_t fourth)
{
    return answer[0] == first && answer[1] == second && answer[2] == third && answer[3] == fourth;
}

template <class Element> static bool all(const std::vector<Element> &slice, Element value)
{
    return std::all_of(slice.begin(), slice.end(), [value](Element one) { return one == value; });
}

// Every element of work memory has this value.
static bool work_is(int value)
{
    return all<std::int64_t>(values, value) && all<std::uint32_t>(labels, value) && all<std::uint64_t>(marks, value);
}

// Runs the container over slices that hold nothing of an earlier run.
static std::uint32_t fresh_run(std::size_t room)
{
    std::fill(values.begin(), values.end(), USED);
    std::fill(labels.begin(), labels.end(), USED);
    std::fill(marks.begin(), marks.end(), USED);
    std::fill(trace.begin(), trace.end(), USED);
    return run(room);
}

// A slice one element shorter than a run needs: 1, before 11 too, and nothing lent changes. One longer: a release, and its last element is as
// it was.
template <class Element> static bool needed(std::vector<Element> &slice, Element before)
{
    const std::size_t size = slice.size(), whole = length;
    bool right = true;

    slice.resize(size - 1);
    for (std::size_t bytes : {std::size_t(0), whole}) {
        length = bytes;
        right = right && fresh_run(CILUNOVAY_TEXT) == CILUNOVAY_TOO_SHORT && answers(CILUNOVAY_TOO_SHORT, 0, 0, 0) && work_is(USED)
                && all<std::int64_t>(output, PATTERN) && all<std::uint32_t>(trace, USED) && holds("")
                && cilunovay_finished(container.data(), answer) == 0;
    }
    slice.resize(size + 1);
    right = right && fresh_run(CILUNOVAY_TEXT) == CILUNOVAY_RELEASED && slice.back() == before;
    slice.resize(size);
    return right;
}

static bool too_short()
{
    return read("printed_case") && needed<std::int64_t>(values, USED) && needed<std::uint32_t>(labels, USED)
           && needed<std::uint64_t>(marks, USED) && needed<std::int64_t>(output, PATTERN) && needed<std::uint32_t>(trace, USED);
}

// So many bytes are too few for a release's text: 51, with the trace of the release, zeros in work memory, and nothing else changed.
static bool too_few(std::size_t room, std::size_t steps, const std::vector<std::uint32_t> &released_trace)
{
    return fresh_run(room) == CILUNOVAY_NO_ROOM && answers(CILUNOVAY_NO_ROOM, steps, 0, 0) && trace == released_trace && work_is(0)
           && all<std::int64_t>(output, PATTERN) && holds("") && cilunovay_finished(container.data(), answer) == steps;
}

static bool released_text()
{
    const std::uint64_t rows = answer[1], columns = answer[2];
    const std::string whole = text_of_rows(rows, columns);
    const std::size_t size = whole.size(), steps = cilunovay_finished(container.data(), answer);
    const std::vector<std::uint32_t> released_trace = trace;

    for (std::size_t room : {std::size_t(CILUNOVAY_TEXT), size, size + 1, text.size()})
        if (fresh_run(room) != CILUNOVAY_RELEASED || !answers(CILUNOVAY_RELEASED, rows, columns, size) || !holds(whole) || !work_is(0))
            return false;
    return too_few(size - 1, steps, released_trace) && too_few(1, steps, released_trace) && too_few(0, steps, released_trace);
}

// A refusal is the same with room for a text and without. One of the input leaves work memory as it was, one of the state leaves zeros.
static bool refused_text(std::uint32_t number)
{
    const std::uint64_t first = answer[1], second = answer[2], third = answer[3];

    for (std::size_t room : {std::size_t(CILUNOVAY_TEXT), std::size_t(0)})
        if (fresh_run(room) != number || !answers(number, first, second, third) || !all<std::int64_t>(output, PATTERN) || !holds("")
            || !work_is(number < CILUNOVAY_NOT_CLEAR ? USED : 0))
            return false;
    return number != CILUNOVAY_NO_ROOM;
}

static bool texts()
{
    const std::uint32_t number = fresh_run(CILUNOVAY_TEXT);

    return number == CILUNOVAY_RELEASED ? released_text() : refused_text(number);
}

// The numbers of a file, as draws.
static bool read_draws(const std::string &name)
{
    std::ifstream file(name);

    for (draws_length = 0; draws_length < draws.size() && file >> draws[draws_length];)
        draws_length++;
    return file.eof();
}

// What stands beside the containers of a folder.
enum Beside { NOTHING, DRAWS, OVERLAYS };

static bool lend(const std::string &name, Beside beside)
{
    return beside == DRAWS ? read_draws(name + ".draws") : beside != OVERLAYS || read_overlays(name);
}

// Tries each container of a folder with what stands beside it.
static bool each_trial(const std::string &folder, Beside beside, bool (*right)())
{
    std::ifstream names(folder + "../args");
    std::string name;
    std::size_t count = 0;

    while (std::getline(names, name)) {
        if (name.find('.') != std::string::npos)
            continue;
        if (!read(folder + name) || !lend(folder + name, beside) || !right()) {
            std::fprintf(stderr, "wrong: %s\n", name.c_str());
            return false;
        }
        count++;
    }
    draws_length = 0;
    no_overlays();
    return count > 0;
}

// Everything that a run has answered and written.
struct Left {
    std::vector<std::uint64_t> answered = std::vector<std::uint64_t>(answer, answer + CILUNOVAY_ANSWER);
    std::vector<std::int64_t> written = output;
    std::vector<std::uint32_t> lines = trace;
    std::vector<std::uint8_t> characters = text;

    bool operator==(const Left &other) const
    {
        return answered == other.answered && written == other.written && lines == other.lines && characters == other.characters;
    }
};

// Overlays that are refused: nothing lent changes, the container by itself is accepted, and a slice that is too short comes first.
static bool refused_overlays(std::uint32_t number)
{
    std::uint64_t checked[CILUNOVAY_CHECK_ANSWER] = {9, 9};

    if (answer[0] != number || answer[2] != 0 || answer[3] != 0 || !work_is(USED) || !all<std::int64_t>(output, PATTERN)
        || !all<std::uint32_t>(trace, USED) || !holds("") || cilunovay_finished(container.data(), answer) != 0)
        return false;
    if (cilunovay_check(container.data(), length, checked, CILUNOVAY_CHECK_ANSWER) != CILUNOVAY_RELEASED || checked[0] != 0 || checked[1] != 0)
        return false;
    marks.pop_back();
    const bool first = fresh_run(CILUNOVAY_TEXT) == CILUNOVAY_TOO_SHORT;
    marks.push_back(0);
    return first;
}

// Overlays that are accepted, or a container that is refused: the same in every order; and where a table is released, the same without them, but for
// the stages left in the trace.
static bool any_order(std::uint32_t number)
{
    const Left left;

    while (std::next_permutation(order.begin(), order.end()))
        if (fresh_run(CILUNOVAY_TEXT) != number || !(Left() == left))
            return false;
    no_overlays();
    return number != CILUNOVAY_RELEASED
           || (fresh_run(CILUNOVAY_TEXT) == CILUNOVAY_RELEASED && text == left.characters && output == left.written);
}

static bool overlaid()
{
    const std::vector<Overlay> before(overlays, overlays + CILUNOVAY_OVERLAYS);
    const std::uint32_t number = fresh_run(CILUNOVAY_TEXT);

    for (int place = 0; place < CILUNOVAY_OVERLAYS; place++)
        if (overlays[place].bytes != before[place].bytes)
            return false;
    return number == CILUNOVAY_BAD_OVERLAY || number == CILUNOVAY_BAD_OVERLAY_LABEL ? refused_overlays(number) : any_order(number);
}

// Runs the container under a rule year.
static std::uint32_t run_under(std::uint8_t year)
{
    container[1] = year;
    return fresh_run(CILUNOVAY_TEXT);
}

// A rule year above 1: 11 at 0, and nothing lent changes.
static bool no_year(std::uint8_t year)
{
    std::uint64_t checked[CILUNOVAY_CHECK_ANSWER] = {9, 9};

    return run_under(year) == CILUNOVAY_BAD_CONTAINER && answers(CILUNOVAY_BAD_CONTAINER, 0, 0, 0) && work_is(USED)
           && all<std::int64_t>(output, PATTERN) && all<std::uint32_t>(trace, USED) && holds("")
           && cilunovay_check(container.data(), length, checked, CILUNOVAY_CHECK_ANSWER) == CILUNOVAY_BAD_CONTAINER && checked[1] == 0;
}

static bool is_of_the_input(std::uint32_t number)
{
    return number >= CILUNOVAY_BAD_CONTAINER && number <= CILUNOVAY_BAD_OVERLAY_LABEL;
}

// The container under both rule years: what 1 releases, 0 releases too, with the same values and text, and the input is refused alike. No other
// year is right.
static bool every_year()
{
    const std::uint32_t earlier = run_under(0);
    const Left left;
    const std::uint32_t floored = run_under(1);
    const Left right;

    if (floored == CILUNOVAY_RELEASED && (earlier != CILUNOVAY_RELEASED || right.written != left.written || right.characters != left.characters))
        return false;
    if ((is_of_the_input(earlier) || is_of_the_input(floored)) && !(right == left))
        return false;
    for (std::uint8_t year : {2, 3, 127, 128, 254, 255})
        if (!no_year(year))
            return false;
    return true;
}

// A trial whose overlays give this number at this offset.
static bool refuses(const char *name, std::uint32_t number, std::uint64_t offset)
{
    const std::string path = std::string("../../overlay_trials/data/") + name;
    const bool right = read(path) && read_overlays(path) && fresh_run(CILUNOVAY_TEXT) == number && answers(number, offset, 0, 0);

    no_overlays();
    return right;
}

// A NOISE of column 1 over the rows (1, 10) and (2, 20), with so many draws.
static std::uint32_t noise(std::size_t count)
{
    draws[0] = 5;
    draws[1] = -6;
    draws[2] = 7;
    draws_length = count;
    const std::uint32_t number = read("r37_noise_without_draws") ? fresh_run(CILUNOVAY_TEXT) : CILUNOVAY_TOO_SHORT;
    draws_length = 0;
    return draws[0] == 5 && draws[1] == -6 && draws[2] == 7 ? number : CILUNOVAY_TOO_SHORT;
}

// So few draws: 37 at the row that finds none, with the trace line of the SCAN, zeros in work memory, and nothing else changed.
static bool too_few_draws(std::size_t count)
{
    std::vector<std::uint32_t> scanned(CILUNOVAY_TRACE, USED);
    const std::uint32_t line[] = {1, 2, 2, 0};

    std::copy(line, line + 4, scanned.begin());
    return noise(count) == CILUNOVAY_NO_DRAW && answers(CILUNOVAY_NO_DRAW, 1, count, 1) && trace == scanned && work_is(0)
           && all<std::int64_t>(output, PATTERN) && holds("") && cilunovay_finished(container.data(), answer) == 1;
}

// Enough draws: the sums, whether more are lent or not.
static bool enough_draws(std::size_t count)
{
    return noise(count) == CILUNOVAY_RELEASED && holds("c0,c1,c2\r\n1,10,15\r\n2,20,14\r\n")
           && cilunovay_finished(container.data(), answer) == 2;
}

// What a conversion is lent for writing, with more elements than it needs.
static std::vector<std::uint8_t> converted;
static std::vector<std::uint32_t> offsets;
static std::vector<std::uint64_t> conversion_answer;

// Converts the container with so many elements for the new one, for the offsets and for the answer. It is only read.
static std::uint32_t convert(std::size_t room, std::size_t offsets_room, std::size_t answer_room)
{
    const std::vector<std::uint8_t> before = container;

    converted.assign(CILUNOVAY_CONTAINER + 9, PATTERN);
    offsets.assign(CILUNOVAY_OFFSETS + 1, USED);
    conversion_answer.assign(CILUNOVAY_CONVERT_ANSWER + 1, USED);
    const std::uint32_t number = cilunovay_convert(container.data(), length, converted.data(), room, offsets.data(), offsets_room,
                                                   conversion_answer.data(), answer_room);
    return container == before ? number : CILUNOVAY_NO_ROOM;
}

// A slice begins with this, and holds behind it what it held before.
template <class Element> static bool begins(const std::vector<Element> &slice, const std::vector<Element> &first, Element before)
{
    return std::equal(first.begin(), first.end(), slice.begin())
           && std::all_of(slice.begin() + first.size(), slice.end(), [before](Element one) { return one == before; });
}

// What a conversion leaves: these numbers at the start of the answer, this new container and these offsets, and nothing else changed.
static bool leaves(const std::vector<std::uint64_t> &numbers, const std::vector<std::uint8_t> &bytes, const std::vector<std::uint32_t> &places)
{
    return begins<std::uint64_t>(conversion_answer, numbers, USED) && begins<std::uint8_t>(converted, bytes, PATTERN)
           && begins<std::uint32_t>(offsets, places, USED);
}

// A trial of the conversion: its name and its answer, a refusal or offsets.
struct Trial {
    std::string name;
    std::uint32_t number;
    std::uint64_t place;
    std::vector<std::uint32_t> places;
};

// The answers of ../../convert: a name, then X with the number and the place, or an offset in each line.
static std::vector<Trial> conversion_trials()
{
    std::ifstream lines("../../convert/answers");
    std::vector<Trial> trials;
    std::string line;

    while (std::getline(lines, line))
        if (line[0] >= 'a' && line[0] <= 'z')
            trials.push_back({line, CILUNOVAY_RELEASED, 0, {}});
        else if (line[0] == 'X')
            std::sscanf(line.c_str(), "X %" SCNu32 " %" SCNu64, &trials.back().number, &trials.back().place);
        else
            trials.back().places.push_back(std::uint32_t(std::stoul(line)));
    return trials;
}

// A slice that is too short: 1, before 11 too, and nothing else changes; an answer that is too short: nothing changes at all.
static bool too_short_to_convert()
{
    const std::size_t none = 0, enough = CILUNOVAY_OFFSETS, numbers = CILUNOVAY_CONVERT_ANSWER;

    for (std::size_t short_answer : {none, numbers - 1})
        for (std::size_t offsets_room : {none, enough})
            if (convert(length, offsets_room, short_answer) != CILUNOVAY_TOO_SHORT || !leaves({}, {}, {}))
                return false;
    for (std::size_t offsets_room : {none, enough - 1})
        if (convert(length, offsets_room, numbers) != CILUNOVAY_TOO_SHORT || !leaves({CILUNOVAY_TOO_SHORT, 0}, {}, {}))
            return false;
    for (std::size_t room : {none, length / 2, length - 1})
        if (length > 0 && (convert(room, enough, numbers) != CILUNOVAY_TOO_SHORT || !leaves({CILUNOVAY_TOO_SHORT, 0}, {}, {})))
            return false;
    return true;
}

// What was converted is accepted, and comes back as it is.
static bool stays(const std::vector<std::uint8_t> &bytes)
{
    std::uint64_t checked[CILUNOVAY_CHECK_ANSWER] = {9, 9};

    std::copy(bytes.begin(), bytes.end(), container.begin());
    return cilunovay_check(container.data(), length, checked, CILUNOVAY_CHECK_ANSWER) == CILUNOVAY_RELEASED
           && convert(length, CILUNOVAY_OFFSETS, CILUNOVAY_CONVERT_ANSWER) == CILUNOVAY_RELEASED && leaves({CILUNOVAY_RELEASED, 0}, bytes, {});
}

// A trial with slices that are long enough and longer: after a refusal the new container and the offsets are as they were.
static bool converts(const Trial &trial)
{
    const std::string path = "../../convert/data/" + trial.name;
    const bool refused = trial.number != CILUNOVAY_RELEASED;
    std::vector<std::uint8_t> bytes(CILUNOVAY_CONTAINER + 1);
    std::size_t size = 0;

    if (!read_file(path + ".converted", bytes, size) || !read(path) || size != (refused ? 0 : length))
        return false;
    bytes.resize(size);
    for (std::size_t room : {length, length + 1, std::size_t(CILUNOVAY_CONTAINER + 9)})
        for (std::size_t offsets_room : {CILUNOVAY_OFFSETS, CILUNOVAY_OFFSETS + 1})
            for (std::size_t answer_room : {CILUNOVAY_CONVERT_ANSWER, CILUNOVAY_CONVERT_ANSWER + 1})
                if (convert(room, offsets_room, answer_room) != trial.number
                    || !leaves({trial.number, refused ? trial.place : trial.places.size()}, bytes, trial.places))
                    return false;
    return too_short_to_convert() && (refused || stays(bytes));
}

static bool conversions()
{
    const std::vector<Trial> trials = conversion_trials();

    for (const Trial &trial : trials)
        if (!converts(trial)) {
            std::fprintf(stderr, "wrong: %s\n", trial.name.c_str());
            return false;
        }
    return !trials.empty();
}

static void put(std::initializer_list<std::uint8_t> bytes)
{
    std::copy(bytes.begin(), bytes.end(), container.begin() + length);
    length += bytes.size();
}

// SCAN of a table of 256 rows of 8 values of -2^47: the longest text.
static bool longest_text()
{
    length = 0;
    put({2, 0, 18, 0, 0, 0, 16, 0, 0, 0, 34, 0, 0, 0, 4, 0x60, 0, 0});
    put({1, 0, 0, 0, 0, 0, 0, 0, 0, 0, 0, 0, 0, 0, 0, 0});
    put({8, 0, 0, 1});
    for (int cell = 0; cell < 256 * 8; cell++)
        put({0, 0, 0, 0, 0, 0x80, 0xFF, 0xFF, 0, 0, 0, 0});
    return texts() && run(CILUNOVAY_TEXT) == CILUNOVAY_RELEASED && answers(0, 256, 8, CILUNOVAY_TEXT)
           && run(CILUNOVAY_TEXT - 1) == CILUNOVAY_NO_ROOM;
}

int main()
{
    return no_bytes() && too_short() && finishes("steps_64", CILUNOVAY_RELEASED, 64) && finishes("printed_case", CILUNOVAY_RELEASED, 2)
                   && finishes("printed_case_minimum_3", CILUNOVAY_STAGE_LEFT, 2) && finishes("r31_filter_first_row", CILUNOVAY_NOT_CLEAR, 1)
                   && finishes("r34_union_of_257", CILUNOVAY_TOO_MANY, 2) && finishes("r36_add", CILUNOVAY_OVER, 2)
                   && finishes("r37_noise_of_a_group", CILUNOVAY_NO_DRAW, 2) && finishes("input_19", CILUNOVAY_BAD_COLUMNS, 0)
                   && finishes("input_20", CILUNOVAY_BAD_SHEETS, 0) && finishes("input_11_year_2", CILUNOVAY_BAD_CONTAINER, 0)
                   && finishes("ten_ballots_year_1", CILUNOVAY_RELEASED, 2) && finishes("nine_ballots_year_1", CILUNOVAY_STAGE_LEFT, 2)
                   && finishes("nine_ballots", CILUNOVAY_RELEASED, 2)
                   && too_few_draws(0) && too_few_draws(1) && enough_draws(2) && enough_draws(3)
                   && refuses("x21_65537_bytes", CILUNOVAY_BAD_OVERLAY, 0) && refuses("x21_third_pair", CILUNOVAY_BAD_OVERLAY, 18)
                   && refuses("x21_in_a_later_part_before_22", CILUNOVAY_BAD_OVERLAY, 26)
                   && refuses("x22_on_a_sheet_number", CILUNOVAY_BAD_OVERLAY_LABEL, 18)
                   && refuses("x22_third_overlay_before_21_of_the_fourth", CILUNOVAY_BAD_OVERLAY_LABEL, 30)
                   && each_trial("../../overlay_trials/data/", OVERLAYS, overlaid) && each_trial("", NOTHING, texts)
                   && each_trial("../../noise_trials/data/", DRAWS, texts) && each_trial("../../overlay_trials/data/", OVERLAYS, texts)
                   && each_trial("", NOTHING, every_year) && each_trial("../../overlay_trials/data/", OVERLAYS, every_year)
                   && longest_text() && conversions()
               ? 0
               : 1;
}
