/* The gas plan checker, for programs in C and C++.
 *
 * Link libgasplan.a: `tools/prove gasplan` proves it and writes it to target/staticlib, `./install PREFIX` puts it where
 * `pkg-config --cflags --libs gasplan` finds it. What a case, a plan and a record are, and each refusal at length, is in
 * RULES.md (docs, or PREFIX/share/doc/gasplan).
 *
 * All functions have the following in common.
 *
 * Lending. Each pointer is lent together with a count of places, for the time of the call. What the caller owes:
 *   - It is not null, also where the count is 0.
 *   - It is aligned as its type is: int64_t at 8 bytes.
 *   - Its places hold values, also those that the call writes: initialise them.
 *   - A region has at most 2^63 - 1 bytes, so a list at most 2^60 - 1 numbers. The proofs have no other bound on a length.
 *   - A region that is not const overlaps no other region of the call. Const regions may overlap, or be the same.
 *   - During the call nobody else writes a region, and nobody else reads one that is not const.
 * A const region is only read. Nothing is kept and nothing is allocated.
 *
 * Answers.
 *   -1        `out` has fewer than 6 places. Nothing that was lent is changed.
 *   0         Yes. The values are in the first places of `out`; each function says which. The other places are unchanged.
 *   1 to 62   The number of the first question whose answer is "no". out[0] is its step and out[1] its place; the other
 *             places are unchanged.
 * Steps and places are 0 or more. Where a rule names no step or place, it is 0.
 * In what follows, "unchanged" means: holds what it held before the call.
 *
 * Threads. The library has no variables, so calls can run at once, in threads or in an interrupt within another call, if
 * their regions keep to the rules above.
 *
 * Returning. It is proved that each call ends, on the machine that defines the language. That machine has no clock and no
 * stack, and the step from it to machine code is the compiler's, which is not proved. What the compiled code takes is
 * measured: stack below, time in docs/DESIGN.md ("Cost of running").
 *
 * The machine. The archive is for x86-64 Linux: ELF, the System V calling convention with its red zone of 128 bytes below
 * the stack pointer, SSE2 and nothing later. It can stand in position-independent programs. From the C library it needs
 * memcpy and memset and nothing else. Elsewhere: the Rattle kit compiles for x86-64 Linux alone, so another target needs a
 * kit that compiles for it, and the gate run with that kit. In the proofs size_t has 64 bits. */
#ifndef GASPLAN_H
#define GASPLAN_H

#include <stddef.h>
#include <stdint.h>

#if SIZE_MAX != UINT64_MAX
#error "gasplan.h: the library's counts have 64 bits, and size_t here has not"
#endif

#ifdef __cplusplus
extern "C" {
#endif

/* The version of the library: the first number changes when programs over it may have to, the second when something is
 * added.
 *
 * 4.1.0    gasplan_settle, with its numbers 60 to 62. The other functions are what they were.
 * 4.0.0    In 26 what an arc's machines reach is taken from p of its in end in the same step. Before, it was taken from p0 of
 *          the in end. A plan that was accepted may be refused by 26 now, and one that 26 refused may be accepted.
 * 3.0.0    In 26 an out bound of 0 stands for acthigh of the arc's out end. Before, it stood for 200,000, which has to be
 *          written outright now.
 * 2.0.0    The place of 1, 2, 5 and 6 is the byte that is missing or wrong. In 1.0.0 it was the first byte of its number. */
#define GASPLAN_VERSION "4.1.0"
#define GASPLAN_VERSION_MAJOR 4
#define GASPLAN_VERSION_MINOR 1
#define GASPLAN_VERSION_PATCH 0

/* The latest edition of a case, its first number. A plan's first number is 1 whatever the edition. */
#define GASPLAN_EDITION 1

/* The least count of places in `out`. */
#define GASPLAN_OUT 6

/* The answer where `out` is too short. */
#define GASPLAN_NO_ROOM (-1)

/* The longest that one number can be, in bytes. A list of n numbers always fits into n * GASPLAN_NUMBER_BYTES bytes, and n
 * bytes never hold more than n numbers. */
#define GASPLAN_NUMBER_BYTES 10

/* An accepted case has at most so many numbers, and an accepted plan. Lists of these lengths are long enough for
 * gasplan_judge_bytes: what does not fit would be refused in any case. */
#define GASPLAN_CASE_MOST 5551
#define GASPLAN_PLAN_MOST 41090

/* A meter's record has at most so many rows, of two numbers each. Each mass, and the agreed figure of a settlement, is at most
 * so many grams. */
#define GASPLAN_RECORD_MOST 5000
#define GASPLAN_GRAMS_MOST 1000000000000

/* The bytes of stack that a call takes at most, its arguments and return address included; what memcpy and memset take is
 * left out. No call is recursive and each frame has one size, so this holds for every input: the gate adds the frames up in
 * the machine code, measures each call on a case and a plan or on two records of the largest size, and holds these figures,
 * which have some room, to both. */
#define GASPLAN_STACK_READ 256
#define GASPLAN_STACK_WRITE 128
#define GASPLAN_STACK_CASE 3072
#define GASPLAN_STACK_JUDGE 6144
#define GASPLAN_STACK_JUDGE_BYTES 6144
#define GASPLAN_STACK_LEDGER 8192
#define GASPLAN_STACK_SETTLE 256

/* The refusals, each with the question that has a "no". k, N, A and S are the case's steps, nodes, arcs and stations. */
enum gasplan_refusal {
    /* The bytes of a case, or of any list. Place: for 1 the count of bytes, which is the index one past the last; for 2 the
     * index of the byte that is wrong, the number's tenth or its last; for 3 the index of the number's first byte. */
    GASPLAN_BYTES_END = 1,           /* Is there a byte for the rest of the number? */
    GASPLAN_BYTE_OUT_OF_PLACE = 2,   /* Is a tenth byte 0 or 1, and a last byte after the first not 0? */
    GASPLAN_LIST_FULL = 3,           /* Is a place free for the number? */
    GASPLAN_BYTES_FULL = 4,          /* Do all bytes fit? */
    /* The bytes of a plan, as 1, 2 and 3. */
    GASPLAN_PLAN_BYTES_END = 5,      /* Is there a byte for the rest of the number? */
    GASPLAN_PLAN_BYTE_OUT_OF_PLACE = 6, /* Is a tenth byte 0 or 1, and a last byte after the first not 0? */
    GASPLAN_PLAN_LIST_FULL = 7,      /* Is a place free for the number? */
    /* The case: place is the index of a field, then an arc, a node, a station. */
    GASPLAN_FIELD_MISSING = 10,      /* Is the field there? */
    GASPLAN_FIELD_RANGE = 11,        /* Is the field in its range? */
    GASPLAN_LEFT_OVER = 12,          /* Is nothing left over after the last field? */
    GASPLAN_ARC_ENDS = 13,           /* Do the arc's ends differ? */
    GASPLAN_ONE_STATION = 14,        /* Is the node in at most one station? */
    GASPLAN_STATION_SIZE = 15,       /* Has the station at most 30 artificial arcs? */
    GASPLAN_DIRECTION_SETS = 16,     /* Do each direction's entry and exit set share no node and hold only fence nodes? */
    GASPLAN_STATE_SETS = 17,         /* Do on and off share nothing and name only the station's arcs, do machine sets name only
                                      * its machines, and does activity at step 0 obey the state at step 0? */
    /* The plan as a whole. */
    GASPLAN_PLAN_HEAD = 20,          /* Are the first two numbers 1 and k, and is the length 2 + k * (6N + 4A + 2S)? */
    /* A node in a step. */
    GASPLAN_NODE_NUMBERS = 21,       /* Are p, d and the slacks in their ranges, and d and the slacks 0 at an inner node? */
    GASPLAN_DEMAND = 22,             /* Is d + s+ - s- the demand? */
    GASPLAN_ACTIVE_BOUNDS = 23,      /* Where there is a demand: is p + u+ >= actlow and p - u- <= acthigh? */
    /* An arc in a step. */
    GASPLAN_ARC_NUMBERS = 24,        /* Are flows within qmax, unused numbers 0, the setting known and not backward on a one-way
                                      * arc, and the machines in the arc's set? */
    GASPLAN_FLOW_ALLOWED = 25,       /* Is there no flow on a shut or off arc, and none against an artificial arc's setting? */
    GASPLAN_PRESSURES = 26,          /* Do the pressures at its ends fit what the arc does, where machines raise the in end's p of
                                      * the same step, and an out bound of 0 stands for acthigh of the out end? */
    GASPLAN_MACHINES = 27,           /* Are there machines only where it compresses, not too many, and enough for the flow? */
    GASPLAN_PIPE_MASS = 28,          /* Is |dt * (a - b) - c * (change of p at from + change at to)| <= E? */
    GASPLAN_PIPE_PRESSURES = 29,     /* Is |1000000 * (to - from) + f * a + g * b + h * (from + to)| <= 1000000 * H? */
    /* A station in a step. */
    GASPLAN_STATION_CHOICE = 30,     /* Are direction and state in range, does the state support the direction, are all on arcs
                                      * active and no off arc? */
    GASPLAN_MACHINE_TWICE = 31,      /* Is each machine on at most one arc? */
    GASPLAN_FENCE_FLOWS = 32,        /* Does gas go in at entry nodes, out at exit nodes, and neither at other fence nodes? */
    /* A node in a step, after all arcs and stations. */
    GASPLAN_BALANCE = 33,            /* Is dt * |flow out - flow in - d| <= E? */
    /* The ledger. */
    GASPLAN_LEDGER_SET = 40,         /* Does the set name only nodes? */
    GASPLAN_LEDGER_STEPS = 41,       /* Is 0 <= s <= t <= k? */
    /* The settlement of two records. Place: for 61 and 62 the row. */
    GASPLAN_RECORDS = 60,            /* Are the rows whole and at most 5,000, and is the agreed figure 0 to 10^12? */
    GASPLAN_RECORD_TIMES = 61,       /* Do times rise strictly, from 0 or more? */
    GASPLAN_RECORD_MASSES = 62       /* Is each mass 0 to 10^12? */
};

/* Reads bytes into a list.
 *
 * 0            out[0] is the count of numbers. They are the first numbers of the list, in order. The list past them is
 *              unchanged. No bytes are no numbers: the count is 0.
 * 1, 2 or 3    A number could not be read (1: the bytes end in it; 2: a byte of it is wrong) or stored (3: the list is full).
 *              3 is asked before any byte of the number, then of each byte 1 before 2.
 *              out[0] is 0. out[1] is bytes_len for 1, the index of the byte that is wrong for 2, and the index of the
 *              number's first byte for 3. The numbers before it are the first numbers of the list. The list past them is
 *              unchanged.
 * -1           The list is unchanged. */
int64_t gasplan_read(const uint8_t *bytes, size_t bytes_len,
                     int64_t *list, size_t list_len,
                     int64_t *out, size_t out_len);

/* Writes a list as bytes.
 *
 * 0     out[0] is the count of bytes. They are the first bytes of `bytes`. The bytes past them are unchanged.
 *       gasplan_read gives the same list back from them.
 * 4     Not all bytes fit. out[0] and out[1] are 0. All of `bytes` is unchanged.
 * -1    All of `bytes` is unchanged. */
int64_t gasplan_write(const int64_t *list, size_t list_len,
                      uint8_t *bytes, size_t bytes_len,
                      int64_t *out, size_t out_len);

/* Judges a case.
 *
 * 0           The case is accepted. All of `out` is unchanged.
 * 10 to 17    out[0] is 0, and out[1] is the index of the field (10 to 12), the arc (13), the node (14) or the station
 *             (15 to 17). */
int64_t gasplan_case(const int64_t *case_list, size_t case_len,
                     int64_t *out, size_t out_len);

/* Judges a case and a plan.
 *
 * 0           Both are accepted. The six totals are in out[0] to out[5]: pressure slack (mbar), demand slack (g/s),
 *             switching cost, residual (g), gas in all pipes at step 0 (g) and at the last step (g).
 * 10 to 17    As gasplan_case has it.
 * 20          The plan's first two numbers or its length. out[0] and out[1] are 0.
 * 21 to 33    out[0] is the step, from 1, and out[1] is the node (21 to 23, 33), the arc (24 to 29) or the station
 *             (30 to 32). */
int64_t gasplan_judge(const int64_t *case_list, size_t case_len,
                      const int64_t *plan_list, size_t plan_len,
                      int64_t *out, size_t out_len);

/* Judges two byte strings, in this order: the case bytes are read into the case list, the numbers read are judged as a case,
 * the plan bytes are read into the plan list, the numbers read are judged as its plan.
 *
 * 0            Both are accepted, with the six totals as gasplan_judge has them. Both lists hold what was read; past that
 *              they are unchanged.
 * 1, 2 or 3    The case bytes could not be read. out and the case list are as gasplan_read has them. The plan list is
 *              unchanged.
 * 10 to 17     The case is refused. The case list holds what was read. The plan list is unchanged.
 * 5, 6 or 7    The plan bytes could not be read: as 1, 2 and 3, with out[1] plan_bytes_len for 5 and an index into the plan
 *              bytes for 6 and 7. The case list holds what was read; the plan list is as gasplan_read has it.
 * 20 to 33     The plan is refused. Both lists hold what was read.
 * -1           Both lists are unchanged. */
int64_t gasplan_judge_bytes(const uint8_t *case_bytes, size_t case_bytes_len,
                            const uint8_t *plan_bytes, size_t plan_bytes_len,
                            int64_t *case_list, size_t case_len,
                            int64_t *plan_list, size_t plan_len,
                            int64_t *out, size_t out_len);

/* Judges a case and a plan, then draws up the ledger of a set of nodes from step s to step t. Bit i of `set`, value 2^i, says
 * that node i is in it.
 *
 * 0           The six figures are in out[0] to out[5]: nodes of the set, inner pipes (both ends in the set), their gas at
 *             step s and at step t (g), gas brought in over the steps s + 1 to t (g, out of the set negative), and the
 *             residual (g). The gas at t less the gas at s less what was brought in is, in size, at most the residual, and
 *             the residual is at most (nodes + inner pipes) * (t - s) * E, where E is the case's mass tolerance.
 * 10 to 33    As gasplan_judge has it. No figure is given for a plan that is refused.
 * 40          The set names something that is no node. out[0] is 0; out[1] is the lowest such bit, or 0 where the set is
 *             outside 0 to 2^60 - 1.
 * 41          Not 0 <= s <= t <= k. out[0] and out[1] are 0. */
int64_t gasplan_ledger(const int64_t *case_list, size_t case_len,
                       const int64_t *plan_list, size_t plan_len,
                       int64_t set, int64_t s, int64_t t,
                       int64_t *out, size_t out_len);

/* Settles the records of two meters at a border point, the sender's and the receiver's. A record has two numbers to a row:
 * the end of an interval (s) and the mass that passed in it (g). Its rows count from 0; it may have none.
 *
 * For a time in both records the sender's mass stands if the two masses differ by at most `agreed` (g), otherwise the
 * smaller. For a time in one record alone that row's mass stands.
 *
 * 0     The five figures are in out[0] to out[4]: the settled total (g), which is the sum of what stands, and four counts of
 *       rows: agreed, cut to the smaller, only in the sender's record, only in the receiver's. Each row is counted in one of
 *       them, and the two rows of a time in both records as one. The total is at most 10^16.
 * 60    A record has an odd count of numbers, or more than GASPLAN_RECORD_MOST rows, or `agreed` is outside 0 to
 *       GASPLAN_GRAMS_MOST. out[0] and out[1] are 0.
 * 61    The time is below 0, in row 0, or not above that of the row before. out[0] is 0 and out[1] is the row.
 * 62    The mass is outside 0 to GASPLAN_GRAMS_MOST. out[0] is 0 and out[1] is the row.
 *       60 is asked of both records and `agreed`, then 61 of the sender's rows and of the receiver's, then 62 of the sender's
 *       and of the receiver's. Whose row out[1] is, a second call tells: it is the sender's if the sender's record is refused
 *       by the same number with an empty one as the receiver's. */
int64_t gasplan_settle(const int64_t *sender, size_t sender_len,
                       const int64_t *receiver, size_t receiver_len,
                       int64_t agreed,
                       int64_t *out, size_t out_len);

#ifdef __cplusplus
}
#endif

#endif
