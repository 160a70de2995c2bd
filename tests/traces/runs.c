/* Runs pairs of containers under valgrind: by its tool lackey for a trace of the instructions
 * and the addresses of each run, and by memcheck to learn what depends on a locked value.
 *
 *     gcc -O2 -no-pie -I include -o runs tests/traces/runs.c DIRECTORY/libcilunovay.a
 *     runs PAIRS
 *
 * PAIRS is what tests/traces/pairs.rs writes. Both runs of a pair are called from one place,
 * with the same slices at the same addresses, which begin with the same contents but for
 * the container; behind each run end_of_run is called. The bytes of the container that
 * differ are marked as undefined, which memcheck alone knows: it tells each branch and each
 * address that depends on one, whatever the values are, and so it does if an answer or
 * what is left in a slice does, which is looked at here. Both answers have to be the one that
 * the file has, and the two runs have to leave the same in every slice. Prints the number of
 * pairs, and before it those that differ. The exit status is 1 where one does, or where the
 * file is not one of pairs.
 */
#include <cilunovay.h>

#include <stdio.h>
#include <stdlib.h>
#include <string.h>
#include <valgrind/memcheck.h>

/* Elements behind each slice lent for writing, which nothing may touch. */
#define MARGIN 16

/* Bytes of a container or an overlay; some are longer than any that is accepted. */
#define LONGEST (1 << 18)

/* The slices lent. traces.rs knows them by these names. */
static uint8_t container[LONGEST];
static int64_t draws[CILUNOVAY_DRAWS + 1024]; /* some lists are longer than any plan needs */
static uint8_t overlays[CILUNOVAY_OVERLAYS][LONGEST];
static int64_t values[CILUNOVAY_WORK + MARGIN];
static uint32_t labels[CILUNOVAY_WORK + MARGIN];
static uint64_t marks[CILUNOVAY_MARKS + MARGIN];
static int64_t output[CILUNOVAY_OUTPUT + MARGIN];
static uint32_t trace[CILUNOVAY_TRACE + MARGIN];
static uint8_t text[CILUNOVAY_TEXT + MARGIN];
static uint64_t answer[CILUNOVAY_ANSWER + MARGIN];

/* Those for writing, and what the first run of a pair left in them. */
enum { WRITTEN = 7 };
static struct {
    void *slice;
    size_t bytes;
    void *left;
} written[WRITTEN] = {
    {values, sizeof values, NULL}, {labels, sizeof labels, NULL}, {marks, sizeof marks, NULL},
    {output, sizeof output, NULL}, {trace, sizeof trace, NULL},   {text, sizeof text, NULL},
    {answer, sizeof answer, NULL},
};

/* How a pair begins: the elements of each slice, and the answer. Then come the two
 * containers, the draws and the overlays. */
struct pair {
    uint64_t values, labels, marks, output, trace, text;
    uint64_t container, draws, overlays[CILUNOVAY_OVERLAYS];
    uint64_t answer[CILUNOVAY_ANSWER];
};

static uint8_t sides[2][LONGEST];
static int status;

/* The mark behind a run. */
__attribute__((noinline)) void end_of_run(void)
{
    __asm__ volatile("");
}

static void differs(uint64_t number, const char *what)
{
    fprintf(stderr, "pair %llu: %s\n", (unsigned long long)number, what);
    status = 1;
}

static void stop(uint64_t number, const char *what)
{
    differs(number, what);
    exit(status);
}

static void take(FILE *file, uint64_t number, void *bytes, uint64_t length, uint64_t room)
{
    if (length > room || fread(bytes, 1, length, file) != length)
        stop(number, "the file is not one of pairs");
}

static void run_pair(FILE *file, uint64_t number)
{
    struct pair pair;
    take(file, number, &pair, sizeof pair, sizeof pair);
    take(file, number, sides[0], pair.container, LONGEST);
    take(file, number, sides[1], pair.container, LONGEST);
    take(file, number, draws, sizeof *draws * pair.draws, sizeof draws);
    for (int i = 0; i < CILUNOVAY_OVERLAYS; i++)
        take(file, number, overlays[i], pair.overlays[i], LONGEST);
    if (pair.values > CILUNOVAY_WORK || pair.labels > CILUNOVAY_WORK
        || pair.marks > CILUNOVAY_MARKS || pair.output > CILUNOVAY_OUTPUT
        || pair.trace > CILUNOVAY_TRACE || pair.text > CILUNOVAY_TEXT)
        stop(number, "a slice is longer than there is room for");
    for (int run = 0; run < 2; run++) {
        for (int i = 0; i < WRITTEN; i++)
            memset(written[i].slice, 0xA5, written[i].bytes);
        memcpy(container, sides[run], pair.container);
        for (uint64_t at = 0; at < pair.container; at++)
            if (sides[0][at] != sides[1][at])
                (void)VALGRIND_MAKE_MEM_UNDEFINED(container + at, 1);
        uint32_t told = cilunovay_run(container, pair.container, draws, pair.draws,
                                      overlays[0], pair.overlays[0], overlays[1], pair.overlays[1],
                                      overlays[2], pair.overlays[2], overlays[3], pair.overlays[3],
                                      values, pair.values, labels, pair.labels, marks, pair.marks,
                                      output, pair.output, trace, pair.trace, text, pair.text,
                                      answer, CILUNOVAY_ANSWER);
        end_of_run();
        if (told != pair.answer[0] || memcmp(answer, pair.answer, sizeof pair.answer) != 0)
            differs(number, "another answer than the reference's");
        for (int i = 0; i < WRITTEN; i++) {
            if (run == 0)
                memcpy(written[i].left, written[i].slice, written[i].bytes);
            else if (memcmp(written[i].left, written[i].slice, written[i].bytes) != 0)
                differs(number, "the two runs leave different contents");
        }
    }
}

int main(int count, char **words)
{
    FILE *file = count == 2 ? fopen(words[1], "rb") : NULL;
    uint64_t pairs;
    if (file == NULL) {
        fprintf(stderr, "usage: runs PAIRS\n");
        return 2;
    }
    for (int i = 0; i < WRITTEN; i++) {
        written[i].left = malloc(written[i].bytes);
        if (written[i].left == NULL)
            stop(0, "no memory");
    }
    take(file, 0, &pairs, sizeof pairs, sizeof pairs);
    for (uint64_t number = 0; number < pairs; number++)
        run_pair(file, number);
    if (fgetc(file) != EOF)
        stop(pairs, "the file is not one of pairs");
    printf("%llu pairs run\n", (unsigned long long)pairs);
    return status;
}
