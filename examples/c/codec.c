/* Numbers to bytes and back, and each answer that can come.
 *
 *     mkdir -p target/examples
 *     cc -std=c11 -I include examples/c/codec.c target/staticlib/libgasplan.a -o target/examples/codec-c
 *     target/examples/codec-c */
#include <inttypes.h>
#include <stdio.h>
#include <string.h>

#include "gasplan.h"

#define COUNT 4

static int failures = 0;

/* Says what a call answered, and counts an answer or a place that was not to come. */
static void show(const char *call, int64_t answer, const int64_t *out, int64_t expected, int64_t place)
{
    printf("%-34s answer %" PRId64 ", out[0] %" PRId64 ", out[1] %" PRId64 "\n", call, answer, out[0], out[1]);
    if (answer != expected || out[1] != place) {
        printf("  expected %" PRId64 " and out[1] %" PRId64 "\n", expected, place);
        failures++;
    }
}

static void there_and_back(void)
{
    const int64_t list[COUNT] = {-900, 64, INT64_MIN, INT64_MAX};
    uint8_t bytes[COUNT * GASPLAN_NUMBER_BYTES] = {0};
    int64_t again[COUNT] = {0};
    int64_t out[GASPLAN_OUT] = {0};

    show("write four numbers", gasplan_write(list, COUNT, bytes, sizeof bytes, out, GASPLAN_OUT), out, 0, 0);
    size_t length = (size_t)out[0];
    printf("  the first two:");
    for (size_t i = 0; i < 4; i++)
        printf(" %02X", bytes[i]);
    printf("\n");
    show("read them back", gasplan_read(bytes, length, again, COUNT, out, GASPLAN_OUT), out, 0, 0);
    if (out[0] != COUNT || memcmp(list, again, sizeof list) != 0) {
        printf("  another list came back\n");
        failures++;
    }
}

/* The place is that of the byte that is missing (1) or wrong (2), or of the first byte of the number for which the list is
 * full (3). */
static void refusals(void)
{
    const uint8_t unfinished[] = {0x02, 0x80};
    const uint8_t needless[] = {0x02, 0x80, 0x00};
    const uint8_t two[] = {0x02, 0x04};
    const int64_t list[1] = {-900};
    int64_t more[2] = {7, 7};
    int64_t room[1] = {7};
    uint8_t byte[1] = {0xAA};
    int64_t out[GASPLAN_OUT] = {0};

    show("a number's bytes end early", gasplan_read(unfinished, 2, more, 2, out, GASPLAN_OUT), out, GASPLAN_BYTES_END, 2);
    show("a last byte 00", gasplan_read(needless, 3, more, 2, out, GASPLAN_OUT), out, GASPLAN_BYTE_OUT_OF_PLACE, 2);
    show("two numbers, one place", gasplan_read(two, 2, room, 1, out, GASPLAN_OUT), out, GASPLAN_LIST_FULL, 1);
    show("two bytes, room for one", gasplan_write(list, 1, byte, 1, out, GASPLAN_OUT), out, GASPLAN_BYTES_FULL, 0);
    show("out too short", gasplan_write(list, 1, byte, 1, out, 5), out, GASPLAN_NO_ROOM, 0);
    if (room[0] != 1 || more[0] != 1 || more[1] != 7 || byte[0] != 0xAA) {
        printf("  a lent place holds something else than the header says\n");
        failures++;
    }
}

int main(void)
{
    there_and_back();
    refusals();
    return failures == 0 ? 0 : 1;
}
