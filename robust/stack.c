/* The deepest job on a thread with a small stack and a guard page below it: expressions 64 deep in guards, bindings and heads of full rules, every
   call from `fresh` to the last line of the report. A step below the stack ends the program. Prints how much of the stack each part of the job used.

   stack BYTES */
#include <inttypes.h>
#include <pthread.h>
#include <stdio.h>
#include <stdlib.h>
#include <string.h>
#include <sys/mman.h>

#include "exports.h"

static uint64_t header[34], nodes[5 * 1024];
static uint32_t predicates[128], constants[2048], order[1024], seeds[24 * 256], records[2048], rules[294 * 256], arguments[24 * 256], slots[32768],
    current[24 * 256], growth[512], scratch[32768 + 2 * 24 * 256 + 2 * 24 * 16 + 256];
static int32_t thresholds[4096];
static uint8_t names[65536], line[256];
#define T(t) (t), sizeof(t) / sizeof *(t)

enum { WORK = 9, POSITIONS = 18, EXPRESSIONS = 21, RULES = 22, PHASE = 27 };

/* The stack is filled with a pattern, so that what was written shows. */
static uint8_t *stack;
static size_t size;
static const char *part;
static size_t used[2];

static size_t depth(void) {
    size_t i = 0;
    while (i < size && stack[i] == 0xa5) i++;
    return size - i;
}

static void ok(Reply answer) {
    if (answer.code) {
        printf("%s: refused with %" PRIu64 "\n", part, answer.code);
        exit(1);
    }
}

static uint64_t expression(uint64_t kind, uint64_t a, uint64_t b, uint64_t c) {
    uint64_t id = header[EXPRESSIONS];
    ok(service_expression(header, T(nodes), kind, a, b, c));
    return header[EXPRESSIONS] > id ? id : id - 1;
}

/* 64 nodes, each on the last: all on the left of an operator, all on the right, under a sign, or under a bar. */
static uint64_t tower(int shape, uint64_t leaf, uint64_t other) {
    uint64_t top = leaf;
    for (int i = 0; i < 63; i++)
        switch (shape) {
        case 0: top = expression(4, i % 3, top, other); break;
        case 1: top = expression(4, i % 3, other, top); break;
        case 2: top = expression(2, i % 2, top, 0); break;
        default: top = expression(3, top, 0, 0); break;
        }
    return top;
}

/* Every binding, guard and head of a rule names a tower. */
static void rule(uint64_t slot_count, const uint64_t towers[4]) {
    static uint64_t words[293];
    memset(words, 0, sizeof words);
    words[0] = slot_count, words[1] = 32, words[2] = 32, words[3] = 16;
    for (int i = 0; i < 32; i++) {
        uint64_t *binding = words + 5 + 4 * i, *guard = words + 133 + 4 * i;
        binding[0] = i < 16 ? 0 : i % 4;
        binding[1] = i % slot_count;
        binding[2] = binding[0] == 0 ? (uint64_t)i : binding[0] == 3 ? 0 : towers[i % 4];
        binding[3] = towers[(i + 1) % 4];
        guard[0] = i % 8 == 7;
        guard[1] = guard[0] ? i % slot_count : towers[i % 4];
        guard[2] = guard[0] ? towers[i % 4] : (uint64_t)(1 + i % 6);
        guard[3] = towers[(i + 1) % 4];
    }
    for (int i = 0; i < 16; i++) words[261 + 2 * i] = i, words[262 + 2 * i] = towers[i % 4];
    ok(service_rule(header, T(nodes), T(rules), T(records), T(words)));
}

static void report(void) {
    for (uint64_t which = 0; which < 5; which++)
        for (uint64_t id = 0; id < 256; id++) {
            if ((which == 0 || which == 4) && id) break;
            for (uint64_t slot = 0; slot < (which == 2 || which == 3 ? 16 : 1); slot++)
                ok(service_line(header, T(arguments), T(rules), T(slots), T(line), which, id, slot));
        }
    for (uint64_t id = 0; id < 256; id++) {
        ok(service_read_argument(header, T(arguments), id).bound.reply);
        ok(service_context_count(header, T(records), id));
    }
    ok(service_status(header).reply);
}

static void *job(void *unused) {
    (void)unused;
    part = "calls";
    memset(header, 0, sizeof header);
    for (int i = 0; i < 9; i++) header[i] = UINT64_MAX;
    header[4] = 16;
    ok(service_fresh(header));
    for (int i = 0; i < 16; i++) ok(service_predicate(header, T(predicates), T(seeds), 16));
    uint8_t text[64];
    memset(text, 'x', sizeof text);
    for (int i = 0; i < 40; i++) ok(service_number(header, T(names), T(constants), T(order), T(thresholds), 17 * i - 300));
    ok(service_name(header, T(names), T(constants), T(order), T(thresholds), T(text)));
    for (uint64_t a = 0; a < 256; a++)
        for (uint64_t k = 0; k < 3; k++) ok(service_seed_value(header, T(constants), T(seeds), T(records), a, (a + 7 * k) % 41));
    ok(service_seed_interval(header, T(seeds), T(records), T(thresholds), 5, -3, 90));
    uint64_t slot = expression(1, 3, 0, 0), literal = expression(0, 20, 0, 0), towers[4];
    for (int shape = 0; shape < 4; shape++) towers[shape] = tower(shape, slot, literal);
    for (int i = 0; i < 256; i++) rule(16, towers);
    used[0] = depth();
    part = "run";
    memset(scratch, 0xff, sizeof scratch);
    ok(service_run(header, T(nodes), T(constants), T(rules), T(seeds), T(thresholds), T(arguments), T(slots), T(current), T(growth), T(scratch)));
    used[1] = depth();
    part = "report";
    if (header[PHASE] == 2) report();
    return 0;
}

int main(int count, char **words) {
    const size_t page = 4096;
    size = count > 1 ? strtoull(words[1], 0, 10) / page * page : 65536;
    uint8_t *all = mmap(0, size + page, PROT_READ | PROT_WRITE, MAP_PRIVATE | MAP_ANONYMOUS, -1, 0);
    stack = all + page;
    memset(stack, 0xa5, size);
    pthread_attr_t how;
    pthread_t thread;
    if (all == MAP_FAILED || mprotect(all, page, PROT_NONE) || pthread_attr_init(&how) || pthread_attr_setstack(&how, stack, size) ||
        pthread_create(&thread, &how, job, 0) || pthread_join(thread, 0)) {
        printf("no such thread\n");
        return 2;
    }
    printf("of %zu bytes: calls %zu, and the run %zu, and the report %zu; the run %s\n", size, used[0], used[1], depth(),
           header[PHASE] == 2 ? "completed" : "was stopped");
    return 0;
}
