/* The conversion of stored containers as a command for scripts, in C.
 *
 *     gcc -O2 -I include -o convert bindings/c/convert.c out/libcilunovay.a
 *     convert < CONTAINER > NEW 2> OFFSETS
 *     convert FILE > NEW 2> OFFSETS
 *
 * Raises each group minimum of 1 in a container to 2, and leaves every other byte as it
 * is. Writes the new container to standard output, and then the byte offset of each
 * label that was changed to standard error, one to a line. A container without a
 * minimum of 1 comes back as it is.
 *
 * Only a container that was accepted before, when a minimum could be 1, is converted;
 * its rule year is 0. Of any other the line of the refusal goes to standard error, and
 * nothing to standard output.
 *
 * A word that begins with -- is no file; ./--name is one.
 *
 * Exit status: 0 the container is converted; 1 it is refused; 2 something could not be
 * read or written, or the words are wrong, and then nothing that was written is to be
 * used.
 */
#include <cilunovay.h>

#include <errno.h>
#include <inttypes.h>
#include <signal.h>
#include <stdio.h>
#include <stdlib.h>
#include <string.h>

enum { CONVERTED = 0, REFUSED = 1, BROKEN = 2 };

/* One byte more than the longest container, so that a longer one is refused. */
static uint8_t container[CILUNOVAY_CONTAINER + 1];
static uint8_t converted[CILUNOVAY_CONTAINER + 1];
static uint32_t offsets[CILUNOVAY_OFFSETS];
static uint64_t answer[CILUNOVAY_CONVERT_ANSWER];

/* Ends the program where something could not be read or written. */
static void fail(const char *name)
{
    fprintf(stderr, "convert: %s: %s\n", name, strerror(errno));
    exit(BROKEN);
}

/* Ends the program where the words are wrong. */
static void misused(void)
{
    fprintf(stderr, "usage: convert [FILE]\n");
    exit(BROKEN);
}

/* Reads the container; what lies past its longest is not read. */
static size_t read_container(FILE *file, const char *name)
{
    size_t length = fread(container, 1, sizeof container, file);

    if (ferror(file))
        fail(name);
    return length;
}

static size_t read_file(const char *name)
{
    FILE *file = fopen(name, "rb");
    size_t length;

    if (file == NULL)
        fail(name);
    length = read_container(file, name);
    fclose(file);
    return length;
}

/* Writes the new container, all of it, before any offset is said. */
static void write_container(size_t length)
{
    if (fwrite(converted, 1, length, stdout) != length || fclose(stdout) != 0)
        fail("standard output");
}

static void print_offsets(uint64_t count)
{
    for (uint64_t at = 0; at < count; at++)
        fprintf(stderr, "%" PRIu32 "\n", offsets[at]);
}

/* Converts the container that was read, and writes what comes of it. */
static int convert(size_t length)
{
    uint32_t number = cilunovay_convert(container, length, converted, sizeof converted, offsets, CILUNOVAY_OFFSETS, answer,
                                        CILUNOVAY_CONVERT_ANSWER);

    if (number == CILUNOVAY_RELEASED) {
        write_container(length);
        print_offsets(answer[1]);
        return CONVERTED;
    }
    fprintf(stderr, "X %" PRIu32 " %" PRIu64 "\n", number, answer[1]);
    return REFUSED;
}

int main(int count, char **words)
{
    int status;

    if (count > 2 || (count == 2 && strncmp(words[1], "--", 2) == 0))
        misused();
    /* A reader that has gone away is an output that cannot be written. */
    signal(SIGPIPE, SIG_IGN);
    status = convert(count == 2 ? read_file(words[1]) : read_container(stdin, "standard input"));
    return ferror(stderr) ? BROKEN : status;
}
