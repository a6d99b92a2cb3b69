/* Settles the records of two meters, sender.bin and receiver.bin of a folder. The second word is the agreed figure, in grams.
 *
 *     mkdir -p target/examples
 *     cc -std=c11 -I include examples/c/settle.c target/staticlib/libgasplan.a -o target/examples/settle-c
 *     target/examples/settle-c examples/meters 1800000 */
#include <errno.h>
#include <inttypes.h>
#include <stdio.h>
#include <stdlib.h>

#include "gasplan.h"

/* A row has two numbers. A list has room for a row too many, so that 60 is asked of a record that is too long. */
#define NUMBERS (2 * (GASPLAN_RECORD_MOST + 1))
#define BYTES (NUMBERS * GASPLAN_NUMBER_BYTES)

/* Lent to the library for the time of a call. Of a file that is longer than the lists a byte too many is read. */
static uint8_t bytes[BYTES + 1];
static int64_t sender[NUMBERS];
static int64_t receiver[NUMBERS];

static int refused(int64_t answer, const int64_t *out)
{
    printf("refused %" PRId64 " %" PRId64 " %" PRId64 "\n", answer, out[0], out[1]);
    return 1;
}

/* The bytes of a file, at most `room`, or -1 where it cannot be read: a record that is not there is not an empty one. */
static long load(const char *folder, const char *name, size_t room)
{
    char path[1024];
    snprintf(path, sizeof path, "%s/%s", folder, name);
    FILE *file = fopen(path, "rb");
    if (file == NULL) {
        perror(path);
        return -1;
    }
    size_t count = fread(bytes, 1, room, file);
    int failed = ferror(file);
    fclose(file);
    return failed ? -1 : (long)count;
}

/* The status is 0 for settled, 1 for refused and 2 where there is no verdict. */
int main(int argc, char **argv)
{
    if (argc != 3) {
        fprintf(stderr, "usage: settle-c FOLDER GRAMS\n");
        return 2;
    }
    char *end = NULL;
    errno = 0;
    long long agreed = strtoll(argv[2], &end, 10);
    if (errno != 0 || end == argv[2] || *end != '\0') {
        fprintf(stderr, "%s is no whole number of 64 bits\n", argv[2]);
        return 2;
    }
    const char *names[] = {"sender.bin", "receiver.bin"};
    int64_t *lists[] = {sender, receiver};
    size_t counts[2] = {0};
    int64_t out[GASPLAN_OUT] = {0};
    for (int i = 0; i < 2; i++) {
        long size = load(argv[1], names[i], sizeof bytes);
        if (size < 0)
            return 2;
        int64_t answer = gasplan_read(bytes, (size_t)size, lists[i], NUMBERS, out, GASPLAN_OUT);
        /* A full list has a row too many already, whatever follows. */
        if (answer != 0 && answer != GASPLAN_LIST_FULL)
            return refused(answer, out);
        counts[i] = answer == 0 ? (size_t)out[0] : NUMBERS;
    }
    int64_t answer = gasplan_settle(sender, counts[0], receiver, counts[1], agreed, out, GASPLAN_OUT);
    if (answer != 0)
        return refused(answer, out);
    printf("settled");
    for (int i = 0; i < 5; i++)
        printf(" %" PRId64, out[i]);
    printf("\n");
    return 0;
}
