/* Calls every entry point of the port with made-up headers and tables, and looks at the answers: only 0 and a call's own refusals may come, and 1, 2
   and readings change nothing. Reads and writes beyond a table are valgrind's to find: each table is an allocation of its own, of its own size.

   drive SEED CALLS */
#include <inttypes.h>
#include <stdio.h>
#include <stdlib.h>
#include <string.h>

#include "exports.h"

enum { HEADER, PREDICATES, NAMES, CONSTANTS, ORDER, THRESHOLDS, NODES, SEEDS, RECORDS, RULES, ARGUMENTS, SLOTS, CURRENT, GROWTH, SCRATCH, LINE, TABLES };
static const size_t cells[TABLES] = {34, 128, 65536, 2048, 1024, 4096, 5 * 1024, 24 * 256, 2048, 294 * 256, 24 * 256, 32768,
                                     24 * 256, 512, 32768 + 2 * 24 * 256 + 2 * 24 * 16 + 256, 256};
static const size_t widths[TABLES] = {8, 4, 1, 4, 4, 4, 8, 4, 4, 4, 4, 4, 4, 4, 4, 1};

static uint64_t state;
static uint64_t any(void) {
    state ^= state << 13, state ^= state >> 7, state ^= state << 17;
    return state;
}
static uint64_t below(uint64_t n) { return any() % n; }

/* Numbers that a test of an end could get wrong. */
static uint64_t number(void) {
    static const uint64_t ends[] = {0, 1, 2, 15, 16, 17, 63, 64, 65, 255, 256, 257, 1007, 1008, 1009, 1023, 1024, 1025, 4087, 4088, 4089,
                                    4094, 4095, 4096, 65535, 65536, 2147483647, 2147483648, 4294967295, 4294967296};
    switch (below(8)) {
    case 0: return any();
    case 1: return UINT64_MAX - below(3);
    case 2: return ends[below(sizeof ends / sizeof *ends)];
    case 3: return any() >> below(64);
    default: return below(12);
    }
}
static int32_t signed_number(void) { return below(3) ? (int32_t)below(41) - 20 : (int32_t)number(); }

static struct table {
    uint8_t *bytes;
    size_t count;
} tables[TABLES];

static void give(int t, size_t count) {
    free(tables[t].bytes);
    tables[t].count = count;
    tables[t].bytes = malloc(count ? count * widths[t] : 1);
}

static void set(int t, size_t i, uint64_t value) {
    if (i < tables[t].count) memcpy(tables[t].bytes + i * widths[t], &value, widths[t]);
}

/* All random, all ones, small numbers, or zeros with a few others. */
static void fill(int t) {
    uint64_t kind = below(4);
    memset(tables[t].bytes, kind == 1 ? 255 : 0, tables[t].count * widths[t]);
    if (kind == 1) return;
    for (size_t i = 0; i < tables[t].count; i++)
        if (kind == 0) set(t, i, any());
        else if (kind == 2) set(t, i, below(20));
        else if (!below(16)) set(t, i, number());
}

/* A run is bounded by its work, so work has little room, also where both numbers are large. */
static void bound(void) {
    uint64_t work = below(3000), used = below(4) ? 0 : UINT64_MAX - 3000;
    set(HEADER, 0, used + work);
    set(HEADER, 9, used + below(work + 1));
}

static void make_header(void) {
    for (size_t i = 0; i < cells[HEADER]; i++) set(HEADER, i, number());
    if (below(3)) /* a store that calls may go on with */
        for (size_t i = 17; i < 25; i++) set(HEADER, i, below(20));
    if (below(3)) {
        for (size_t i = 1; i < 9; i++) set(HEADER, i, UINT64_MAX >> below(8));
        for (size_t i = 10; i < 17; i++) set(HEADER, i, below(8));
        set(HEADER, 4, below(18));
    }
    set(HEADER, 27, below(5) ? 1 + below(2) : below(5));
    bound();
}

/* The words as a call hands them back: marks are 0 or 1, a context has 32 bits, a phase and a resource are numbers that there are. */
static void settle(void) {
    uint64_t *w = (uint64_t *)tables[HEADER].bytes;
    static const int marks[] = {25, 32};
    for (int i = 0; i < 2; i++) {
        if (marks[i] == 32 && w[27] < 3) break;
        w[marks[i] + 1] = w[marks[i]] ? w[marks[i] + 1] & 0xffffffff : 0;
        w[marks[i]] = !!w[marks[i]];
    }
    if (w[27] < 3) return;
    w[27] = 3;
    if (w[28] < 3 || w[28] == 5 || w[28] > 10) w[28] = 10;
}

static void make_tables(void) {
    for (int t = 1; t < TABLES; t++) {
        give(t, below(200) ? cells[t] : below(2) ? 0 : cells[t] + below(3) - 1);
        fill(t);
    }
}

#define WORDS ((uint64_t *)tables[HEADER].bytes)
#define U8(t) (tables[t].bytes), tables[t].count
#define U32(t) ((uint32_t *)tables[t].bytes), tables[t].count
#define I32(t) ((int32_t *)tables[t].bytes), tables[t].count
#define U64(t) ((uint64_t *)tables[t].bytes), tables[t].count

static uint64_t id(void) { return below(3) ? below(8) : number(); }

static uint64_t call_constant(void) {
    if (below(2)) return service_number(WORDS, U8(NAMES), U32(CONSTANTS), U32(ORDER), I32(THRESHOLDS), signed_number()).code;
    size_t n = below(3) ? below(66) : below(200);
    uint8_t *text = malloc(n ? n : 1);
    for (size_t i = 0; i < n; i++) text[i] = below(2) ? 'a' + below(2) : any();
    uint64_t answer = service_name(WORDS, U8(NAMES), U32(CONSTANTS), U32(ORDER), I32(THRESHOLDS), text, n).code;
    free(text);
    return answer;
}

static uint64_t call_rule(void) {
    uint64_t *rule = malloc(293 * sizeof *rule);
    for (int i = 0; i < 293; i++) rule[i] = below(5) ? below(4) : number();
    for (int i = 0; i < 5; i++) rule[i] = below(4) ? below(4) : number();
    rule[4] = below(20) ? 0 : number();
    uint64_t answer = service_rule(WORDS, U64(NODES), U32(RULES), U32(RECORDS), rule, below(50) ? 293 : below(293)).code;
    free(rule);
    return answer;
}

/* A refused `fresh` leaves the words of no store, on which every call meets 1. */
static uint64_t call_fresh(void) {
    uint64_t answer = service_fresh(WORDS).code, *words = WORDS;
    if (answer != 1) return answer;
    bool none = words[27] == 0 && service_context(words, 5).code == 1 && service_work(words, 0).code == 1 && service_status(words).reply.code == 1;
    for (int i = 9; i < 28; i++) none = none && words[i] == 0;
    if (!none) {
        printf("a refused fresh left a store\n");
        exit(1);
    }
    return answer;
}

/* The entry points by number; readings and lines are those from FIRST_READING on. */
enum { CALLS = 28, FIRST_READING = 12 };
static const char *const names[CALLS] = {"fresh", "context", "work", "predicate", "argument", "constant", "constant", "expression", "seed_value",
    "seed_interval", "rule", "run", "argument read", "context_count", "context read", "status", "slot", "key", "name", "name", "status_line",
    "argument_line", "slot_line d", "slot_line g", "statistics_line", "refusal_line",
    "report_line", "line_count"};

/* Which answers a call may give, a bit for each: 0, and the numbers of crates/soundness/specs/Numbers.antt. */
#define ANY(a, b, c, d, e, f) (1u | 1u << (a) | 1u << (b) | 1u << (c) | 1u << (d) | 1u << (e) | 1u << (f))
enum { LAST = 14, ONE = ANY(1, 1, 1, 1, 1, 1), IDS = ANY(1, 5, 5, 5, 5, 5), SLOT = ANY(1, 5, 14, 14, 14, 14), KEYS = ANY(1, 2, 3, 4, 8, 8) };
static const unsigned may[CALLS] = {ONE, ONE, ANY(1, 3, 3, 3, 3, 3), ANY(1, 2, 3, 6, 7, 7), ANY(1, 2, 5, 5, 5, 5), KEYS, KEYS, ANY(1, 2, 3, 5, 8, 8),
    ANY(1, 2, 3, 5, 8, 9), ANY(1, 2, 3, 5, 8, 13), ANY(1, 2, 3, 5, 8, 14), ANY(1, 2, 2, 2, 2, 2), IDS, IDS, IDS, ONE, SLOT, IDS, IDS, IDS, ONE,
    IDS, SLOT, SLOT, ONE, ONE,
    IDS, ONE};

static uint64_t call(int which) {
    uint8_t text[64];
    switch (which) {
    case 0: return call_fresh();
    case 1: return service_context(WORDS, number()).code;
    case 2: return service_work(WORDS, number()).code;
    case 3: return service_predicate(WORDS, U32(PREDICATES), U32(SEEDS), below(2) ? below(5) : number()).code;
    case 4: return service_argument(WORDS, U32(PREDICATES), id(), id()).code;
    case 5: case 6: return call_constant();
    case 7: return service_expression(WORDS, U64(NODES), below(6), below(2) ? below(9) : id(), id(), id()).code;
    case 8: return service_seed_value(WORDS, U32(CONSTANTS), U32(SEEDS), U32(RECORDS), id(), id()).code;
    case 9: return service_seed_interval(WORDS, U32(SEEDS), U32(RECORDS), I32(THRESHOLDS), id(), signed_number(), signed_number()).code;
    case 10: return call_rule();
    case 11: return service_run(WORDS, U64(NODES), U32(CONSTANTS), U32(RULES), U32(SEEDS), I32(THRESHOLDS), U32(ARGUMENTS), U32(SLOTS), U32(CURRENT),
                                U32(GROWTH), U32(SCRATCH)).code;
    case 12: return service_read_argument(WORDS, U32(ARGUMENTS), id()).bound.reply.code;
    case 13: return service_context_count(WORDS, U32(RECORDS), id()).code;
    case 14: return service_read_context(WORDS, U32(RECORDS), id(), id()).code;
    case 15: return service_status(WORDS).reply.code;
    case 16: return service_read_slot(WORDS, U32(RULES), U32(SLOTS), id(), id(), below(2)).reply.code;
    case 17: return service_read_key(WORDS, U32(CONSTANTS), id()).reply.code;
    case 18: case 19: return service_read_name(WORDS, U8(NAMES), U32(CONSTANTS), id(), text).code;
    default: return service_line(WORDS, U32(ARGUMENTS), U32(RULES), U32(SLOTS), U8(LINE), which - 20, id(), id()).code;
    }
}

static uint64_t sum(int t) {
    uint64_t h = 1469598103934665603u;
    for (size_t i = 0; i < tables[t].count * widths[t]; i++) h = (h ^ tables[t].bytes[i]) * 1099511628211u;
    return h;
}

/* No other answer, and what must stay: everything after 1 or 2, and all but the line after a reading. Looked at now and then, since it reads all tables. */
static void judge(int which, uint64_t answer, const uint64_t *before, bool looked, uint64_t nth) {
    if (answer > LAST || !(may[which] >> answer & 1)) {
        printf("call %" PRIu64 ", %s: answered %" PRIu64 "\n", nth, names[which], answer);
        exit(1);
    }
    if (!looked) return;
    bool stays = which >= FIRST_READING || ((answer == 1 || answer == 2) && which != 0);
    for (int t = 0; t < TABLES; t++)
        if (stays && t != LINE && sum(t) != before[t]) {
            printf("call %" PRIu64 ", %s: answered %" PRIu64 " and changed table %d\n", nth, names[which], answer, t);
            exit(1);
        }
}

int main(int count, char **words) {
    uint64_t counts[CALLS][LAST + 1] = {{0}}, before[TABLES], calls = count > 2 ? strtoull(words[2], 0, 10) : 1000;
    state = 88172645463325252u ^ (count > 1 ? strtoull(words[1], 0, 10) * 2654435761u : 0);
    give(HEADER, cells[HEADER]);
    for (uint64_t i = 0; i < calls; i++) {
        if (i % 200 == 0) make_tables();
        /* a header of its own, or what the last call left, with one word changed now and then */
        if (i % 40 == 0 || !below(30)) make_header();
        else if (!below(10)) set(HEADER, below(34), number());
        int which = below(CALLS);
        bool looked = !below(500);
        /* mostly a phase that admits the call */
        if (below(4)) set(HEADER, 27, which < FIRST_READING ? 1 : 2 + below(8) / 7);
        bound();
        settle();
        for (int t = 0; looked && t < TABLES; t++) before[t] = sum(t);
        uint64_t answer = call(which);
        judge(which, answer, before, looked, i);
        counts[which][answer]++;
    }
    for (int c = 0; c < CALLS; c++) {
        printf("%-16s", names[c]);
        for (int n = 0; n <= LAST; n++) printf(" %" PRIu64, counts[c][n]);
        printf("\n");
    }
    printf("%" PRIu64 " calls, none answered but 0 and its own refusals, nothing changed that must stay\n", calls);
}
