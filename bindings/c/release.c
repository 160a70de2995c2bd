/* The release monitor as a command for scripts, in C.
 *
 *     gcc -O2 -I include -o release bindings/c/release.c out/libcilunovay.a
 *     release < CONTAINER
 *     release FILE..
 *     release --csv < CONTAINER > tally.csv
 *     release --csv FILE > tally.csv
 *     release --draws DRAWS < CONTAINER
 *     release --draws DRAWS --csv FILE > tally.csv
 *     release --overlay OVERLAY --overlay OVERLAY FILE
 *
 * Prints a line for each finished step, then the released rows or the refusal.
 * Given files, it prints the name of each before its lines.
 *
 * With --csv it prints the released table as comma-separated text and nothing else.
 * Of a refusal it prints nothing, and the line of the refusal goes to standard error.
 *
 * With --draws it lends the run the numbers of the file DRAWS, which NOISE adds to
 * values: one to a line, each from -2^63 to 2^63 - 1, in at most 19 decimal digits.
 * Without it there are none.
 *
 * With --overlay, up to four times, the labels of the file OVERLAY are composed onto
 * those of the container's tables, and so the release asks for more. An empty file is
 * no overlay.
 *
 * The options stand before the file, in any order, and with any of them there is one
 * container at most: draws are never used twice, and an overlay is made for its
 * container. A word that begins with -- is no file; ./--name is one.
 *
 * Exit status: 0 every container is released; 1 one is refused; 2 something could
 * not be read or written, or the words are wrong, and then nothing that was printed
 * is to be used.
 */
#include <cilunovay.h>

#include <errno.h>
#include <inttypes.h>
#include <signal.h>
#include <stdio.h>
#include <stdlib.h>
#include <string.h>

enum { RELEASED = 0, REFUSED = 1, BROKEN = 2 };

/* One byte more than the longest container and the longest overlay, so that a longer
 * one is refused. */
static uint8_t container[CILUNOVAY_CONTAINER + 1];
static int64_t draws[CILUNOVAY_DRAWS]; /* no plan uses more */
static size_t draws_length;
static uint8_t overlays[CILUNOVAY_OVERLAYS][CILUNOVAY_OVERLAY + 1];
static size_t overlay_lengths[CILUNOVAY_OVERLAYS]; /* 0 where there is none */
static int64_t values[CILUNOVAY_WORK];
static uint32_t labels[CILUNOVAY_WORK];
static uint64_t marks[CILUNOVAY_MARKS];
static int64_t output[CILUNOVAY_OUTPUT];
static uint32_t trace[CILUNOVAY_TRACE];
static uint8_t text[CILUNOVAY_TEXT]; /* room for every text: 51 never occurs */
static uint64_t answer[CILUNOVAY_ANSWER];

/* Ends the program where something could not be read or written. */
static void fail(const char *name)
{
    fprintf(stderr, "release: %s: %s\n", name, strerror(errno));
    exit(BROKEN);
}

/* Ends the program where the words are wrong. */
static void misused(void)
{
    fprintf(stderr, "usage: release [FILE..], or release [--csv] [--draws DRAWS] [--overlay OVERLAY].. [FILE]\n");
    exit(BROKEN);
}

static void print_steps(size_t finished)
{
    for (size_t step = 0; step < finished; step++) {
        const uint32_t *line = trace + 4 * step;
        printf("S %zu %" PRIu32 " %" PRIu32 " %" PRIu32 " %" PRIu32 "\n", step, line[0], line[1], line[2], line[3]);
    }
}

static void print_rows(uint64_t rows, uint64_t columns)
{
    for (uint64_t row = 0; row < rows; row++) {
        printf("R");
        for (uint64_t column = 0; column < columns; column++)
            printf(" %" PRId64, output[row * columns + column]);
        printf("\n");
    }
}

static void print_refusal(FILE *file, uint32_t number, const uint64_t *place)
{
    if (number >= CILUNOVAY_BAD_CONTAINER && number <= CILUNOVAY_BAD_OVERLAY_LABEL)
        fprintf(file, "X %" PRIu32 " %" PRIu64 "\n", number, place[0]);
    else
        fprintf(file, "X %" PRIu32 " %" PRIu64 " %" PRIu64 " %" PRIu64 "\n", number, place[0], place[1], place[2]);
}

/* Runs the container that was read; the answer begins with the number. */
static uint32_t run(size_t length)
{
    return cilunovay_run(container, length, draws, draws_length, overlays[0], overlay_lengths[0], overlays[1],
                         overlay_lengths[1], overlays[2], overlay_lengths[2], overlays[3], overlay_lengths[3], values,
                         CILUNOVAY_WORK, labels, CILUNOVAY_WORK, marks, CILUNOVAY_MARKS, output, CILUNOVAY_OUTPUT, trace,
                         CILUNOVAY_TRACE, text, CILUNOVAY_TEXT, answer, CILUNOVAY_ANSWER);
}

/* Runs the container that was read, and prints what the monitor answers. */
static int print_run(size_t length)
{
    uint32_t number = run(length);

    print_steps(cilunovay_finished(container, answer));
    if (number == CILUNOVAY_RELEASED) {
        print_rows(answer[1], answer[2]);
        return RELEASED;
    }
    print_refusal(stdout, number, answer + 1);
    return REFUSED;
}

/* Runs the container that was read, and prints the text of its release alone. */
static int print_text(size_t length)
{
    uint32_t number = run(length);

    if (number == CILUNOVAY_RELEASED) {
        fwrite(text, 1, answer[3], stdout);
        return RELEASED;
    }
    print_refusal(stderr, number, answer + 1);
    return REFUSED;
}

/* Reads a file into memory of this size; what lies past that is not read. */
static size_t read_whole(FILE *file, const char *name, uint8_t *bytes, size_t size)
{
    size_t length = fread(bytes, 1, size, file);

    if (ferror(file))
        fail(name);
    return length;
}

static FILE *opened(const char *name)
{
    FILE *file = fopen(name, "rb");

    if (file == NULL)
        fail(name);
    return file;
}

static size_t read_file(const char *name, uint8_t *bytes, size_t size)
{
    FILE *file = opened(name);
    size_t length = read_whole(file, name, bytes, size);

    fclose(file);
    return length;
}

/* The number of a line that begins with this character; the line is read to its end. */
static int64_t read_number(FILE *file, int character, const char *name, size_t line)
{
    int negative = character == '-', digits = 0, fits = 1;
    int64_t number = 0; /* its negation, where it has no minus: the range reaches further below zero */

    if (negative)
        character = getc(file);
    for (; character >= '0' && character <= '9'; character = getc(file)) {
        int digit = character - '0';

        digits++;
        fits = fits && digits <= 19 && number >= (INT64_MIN + digit) / 10;
        number = fits ? number * 10 - digit : 0;
    }
    if (ferror(file))
        fail(name);
    if (!digits || !fits || (!negative && number == INT64_MIN) || (character != '\n' && character != EOF)) {
        fprintf(stderr, "release: %s: line %zu is no number from -2^63 to 2^63 - 1\n", name, line);
        exit(BROKEN);
    }
    return negative ? number : -number;
}

/* Reads the draws; those that no plan can use are not kept. */
static void read_draws(const char *name)
{
    FILE *file = opened(name);
    int character;

    for (size_t line = 1; (character = getc(file)) != EOF; line++) {
        int64_t draw = read_number(file, character, name, line);

        if (draws_length < CILUNOVAY_DRAWS)
            draws[draws_length++] = draw;
    }
    if (ferror(file))
        fail(name);
    fclose(file);
}

static int is_option(const char *word)
{
    return strncmp(word, "--", 2) == 0;
}

/* What the options say. */
struct options {
    int csv;
    const char *draws;
    int overlay_count;
    const char *overlays[CILUNOVAY_OVERLAYS];
};

/* Takes the options, and answers where the files begin. */
static int take_options(int count, char **words, struct options *taken)
{
    int first = 1;

    for (; first < count && is_option(words[first]); first++) {
        int named = first + 1 < count && !is_option(words[first + 1]);

        if (strcmp(words[first], "--csv") == 0 && !taken->csv)
            taken->csv = 1;
        else if (strcmp(words[first], "--draws") == 0 && taken->draws == NULL && named)
            taken->draws = words[++first];
        else if (strcmp(words[first], "--overlay") == 0 && taken->overlay_count < CILUNOVAY_OVERLAYS && named)
            taken->overlays[taken->overlay_count++] = words[++first];
        else
            misused();
    }
    for (int i = first; i < count; i++)
        if (is_option(words[i]))
            misused();
    if (first > 1 && count > first + 1)
        misused();
    return first;
}

int main(int count, char **words)
{
    struct options taken = {0};
    int first = take_options(count, words, &taken), status = RELEASED;
    int (*print)(size_t) = taken.csv ? print_text : print_run;

    /* A reader that has gone away is an output that cannot be written. */
    signal(SIGPIPE, SIG_IGN);
    if (taken.draws != NULL)
        read_draws(taken.draws);
    for (int i = 0; i < taken.overlay_count; i++)
        overlay_lengths[i] = read_file(taken.overlays[i], overlays[i], sizeof overlays[i]);
    if (first == count)
        status = print(read_whole(stdin, "standard input", container, sizeof container));
    for (int i = first; i < count; i++) {
        size_t length = read_file(words[i], container, sizeof container);

        if (!taken.csv)
            printf("%s\n", words[i]);
        if (print(length) == REFUSED)
            status = REFUSED;
    }
    if (ferror(stdout) || fclose(stdout) != 0)
        fail("standard output");
    return status;
}
