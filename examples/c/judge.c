/* Judges case.bin and plan.bin of a folder and, if they are accepted, prints the ledger of the whole network.
 *
 *     mkdir -p target/examples
 *     cc -std=c11 -I include examples/c/judge.c target/staticlib/libgasplan.a -o target/examples/judge-c
 *     target/examples/judge-c examples/line */
#include <inttypes.h>
#include <stdio.h>

#include "gasplan.h"

/* The limits of the control room's program. */
#define CASE_BYTES 4096
#define CASE_NUMBERS 1500
#define PLAN_BYTES 8192
#define PLAN_NUMBERS 4000

/* Lent to the library for the time of a call. A panel keeps such arrays once, too. */
static uint8_t case_bytes[CASE_BYTES + 1];
static uint8_t plan_bytes[PLAN_BYTES + 1];
static int64_t case_list[CASE_NUMBERS];
static int64_t plan_list[PLAN_NUMBERS];

/* Up to `room` bytes of a file; a missing file counts as empty. */
static size_t load(const char *folder, const char *name, uint8_t *bytes, size_t room)
{
    char path[1024];
    snprintf(path, sizeof path, "%s/%s", folder, name);
    FILE *file = fopen(path, "rb");
    if (file == NULL)
        return 0;
    size_t count = fread(bytes, 1, room, file);
    fclose(file);
    return count;
}

static void print_figures(const char *word, const int64_t *out)
{
    printf("%s", word);
    for (int i = 0; i < GASPLAN_OUT; i++)
        printf(" %" PRId64, out[i]);
    printf("\n");
}

/* All nodes, from step 0 to the last. The head of an accepted case has its counts of nodes and steps. */
static int64_t whole_ledger(size_t case_count, size_t plan_count, int64_t *out)
{
    int64_t nodes = case_list[1], steps = case_list[4];
    int64_t all = (int64_t)((UINT64_C(1) << nodes) - 1);
    return gasplan_ledger(case_list, case_count, plan_list, plan_count, all, 0, steps, out, GASPLAN_OUT);
}

/* The status is 0 for accepted, 1 for refused and 2 where there is no verdict. */
int main(int argc, char **argv)
{
    const char *folder = argc > 1 ? argv[1] : ".";
    int64_t out[GASPLAN_OUT] = {0};
    size_t case_size = load(folder, "case.bin", case_bytes, sizeof case_bytes);
    size_t plan_size = load(folder, "plan.bin", plan_bytes, sizeof plan_bytes);
    if (case_size > CASE_BYTES || plan_size > PLAN_BYTES) {
        printf("too long\n");
        return 2;
    }
    int64_t answer = gasplan_judge_bytes(case_bytes, case_size, plan_bytes, plan_size, case_list, CASE_NUMBERS,
                                         plan_list, PLAN_NUMBERS, out, GASPLAN_OUT);
    if (answer != 0) {
        printf("refused %" PRId64 " %" PRId64 " %" PRId64 "\n", answer, out[0], out[1]);
        return 1;
    }
    print_figures("accepted", out);

    /* The same by lists: how many numbers there are comes from the reader. */
    gasplan_read(case_bytes, case_size, case_list, CASE_NUMBERS, out, GASPLAN_OUT);
    size_t case_count = (size_t)out[0];
    gasplan_read(plan_bytes, plan_size, plan_list, PLAN_NUMBERS, out, GASPLAN_OUT);
    size_t plan_count = (size_t)out[0];
    if (gasplan_case(case_list, case_count, out, GASPLAN_OUT) != 0 ||
        gasplan_judge(case_list, case_count, plan_list, plan_count, out, GASPLAN_OUT) != 0 ||
        whole_ledger(case_count, plan_count, out) != 0)
        return 2;
    print_figures("ledger", out);
    return 0;
}
