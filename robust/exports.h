/* What crate `exports` gives to C. A slice is its address and its length; a header is 34 words. */
#include <stdbool.h>
#include <stddef.h>
#include <stdint.h>

typedef struct { uint64_t code, value, limit, high, low; } Reply;
typedef struct { Reply reply; uint32_t mixed, interval; int32_t low, high; } BoundReply;
typedef struct { BoundReply bound; uint32_t kept, reason; uint64_t len; uint16_t ids[16]; } ValueReply;
typedef struct { Reply reply; int32_t number; } KeyReply;
typedef struct { Reply reply, stop; uint32_t set, context; } StatusReply;

#define SLICE(type) type *, size_t
Reply service_fresh(uint64_t *);
Reply service_context(uint64_t *, uint32_t);
Reply service_work(uint64_t *, uint64_t);
Reply service_predicate(uint64_t *, SLICE(uint32_t), SLICE(uint32_t), uint64_t);
Reply service_argument(const uint64_t *, SLICE(uint32_t), uint64_t, uint64_t);
Reply service_number(uint64_t *, SLICE(uint8_t), SLICE(uint32_t), SLICE(uint32_t), SLICE(int32_t), int32_t);
Reply service_name(uint64_t *, SLICE(uint8_t), SLICE(uint32_t), SLICE(uint32_t), SLICE(int32_t), SLICE(uint8_t));
Reply service_expression(uint64_t *, SLICE(uint64_t), uint64_t, uint64_t, uint64_t, uint64_t);
Reply service_seed_value(uint64_t *, SLICE(uint32_t), SLICE(uint32_t), SLICE(uint32_t), uint64_t, uint64_t);
Reply service_seed_interval(uint64_t *, SLICE(uint32_t), SLICE(uint32_t), SLICE(int32_t), uint64_t, int32_t, int32_t);
Reply service_rule(uint64_t *, SLICE(uint64_t), SLICE(uint32_t), SLICE(uint32_t), SLICE(uint64_t));
Reply service_run(uint64_t *, SLICE(uint64_t), SLICE(uint32_t), SLICE(uint32_t), SLICE(uint32_t), SLICE(int32_t), SLICE(uint32_t), SLICE(uint32_t),
                  SLICE(uint32_t), SLICE(uint32_t), SLICE(uint32_t));
ValueReply service_read_argument(const uint64_t *, SLICE(uint32_t), uint64_t);
Reply service_context_count(const uint64_t *, SLICE(uint32_t), uint64_t);
Reply service_read_context(const uint64_t *, SLICE(uint32_t), uint64_t, uint64_t);
BoundReply service_read_slot(const uint64_t *, SLICE(uint32_t), SLICE(uint32_t), uint64_t, uint64_t, bool);
KeyReply service_read_key(const uint64_t *, SLICE(uint32_t), uint64_t);
Reply service_read_name(const uint64_t *, SLICE(uint8_t), SLICE(uint32_t), uint64_t, uint8_t *);
StatusReply service_status(const uint64_t *);
Reply service_line(const uint64_t *, SLICE(uint32_t), SLICE(uint32_t), SLICE(uint32_t), SLICE(uint8_t), uint64_t, uint64_t, uint64_t);
