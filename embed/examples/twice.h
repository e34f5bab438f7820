/*
 * A slave or a master with two channels that compare. Each channel has an end in memory of its own, and the code of
 * another compiler: embed/twin links the second archive's calls by the prefix twin_. The calls, and what they need, are
 * those of gatepast.h, by names that begin with twice_ where they begin with gp_ there; so are memory and handle:
 *
 *     static twice_slave_memory memory;
 *     static twice_slave slave = TWICE_SLAVE_IN(&memory);
 *
 * Both channels get each call. What they answer, write and read has to be equal, and after each step their states, ages
 * and outputs, before anything leaves. Then all is as with one end. At the first difference the call returns
 * TWICE_STOPPED, and so does each later one: outputs and all else that a call writes are zeros then, and there is no
 * frame to send. Switch off, don't send the last frame again, and don't set the handle anew: the program starts anew.
 *
 * The comparison is outside of both channels, which have memcpy, memmove and memset in common: it is tested, and not
 * proved. `__typeof__` and `__attribute__` are known to gcc and clang.
 */
#ifndef GATEPAST_TWICE_H
#define GATEPAST_TWICE_H

#include <gatepast.h>
#include <string.h>

/* What a call returns once the channels differed, besides enum gp_answer. */
enum { TWICE_STOPPED = 255 };

/* Whether the channels run. No two of these become each other by a few turned bits; any other number is TWICE_HALTED.
 */
#define TWICE_NEW UINT32_C(0)
#define TWICE_RUNS UINT32_C(0x5AC3693C)
#define TWICE_HALTED UINT32_C(0xA53C96C3)

#define TWICE_SLAVE_IN(memory) \
    { (memory), TWICE_NEW }
#define TWICE_MASTER_IN(memory) \
    { (memory), TWICE_NEW }

static inline uint8_t twice_halt(uint32_t *mode) {
    *mode = TWICE_HALTED;
    return TWICE_STOPPED;
}

/* What a call answers where no channel is called. */
static inline uint8_t twice_idle(uint32_t *mode) {
    return *mode == TWICE_NEW ? (uint8_t)GP_NO_END : twice_halt(mode);
}

/* What both channels answered. Once they run, each has an end. */
static inline uint8_t twice_answer(uint32_t *mode, uint8_t of_first, uint8_t of_second) {
    return of_first == of_second && of_first != GP_NO_END ? of_first : twice_halt(mode);
}

/* Gives what both channels read, or zeros once they differed. */
static inline uint8_t twice_read(uint32_t *mode, uint8_t answer, const void *first, const void *second, void *to,
                                 size_t len) {
    if (answer == GP_OK && memcmp(first, second, len) != 0) answer = twice_halt(mode);
    if (answer == GP_OK) memcpy(to, first, len);
    if (answer == TWICE_STOPPED && len != 0) memset(to, 0, len);
    return answer;
}

static inline bool twice_equal_frames(const gp_frame *first, const gp_frame *second) {
    return first->len == second->len && first->len <= GP_MOST_FRAME &&
           memcmp(first->bytes, second->bytes, first->len) == 0;
}

static inline bool twice_equal_did(const gp_did *first, const gp_did *second) {
    return first->load_len <= GP_MOST_DATA && memcmp(first, second, sizeof *first) == 0;
}

static inline void twice_give_frame(gp_frame *to, const gp_frame *from) {
    to->len = from->len;
    memcpy(to->bytes, from->bytes, from->len);
}

static inline void twice_give_did(gp_did *to, const gp_did *from) {
    memcpy(to, from, offsetof(gp_did, load) + from->load_len);
    to->used = from->used;
}

#define TWICE_JOIN(before, end, after) before##end##after
#define TWICE_JOINED(before, end, after) TWICE_JOIN(before, end, after)

/* A call or a type of both channels, of the first and of the second, for the end that TWICE_END names. */
#define TWICE(name) TWICE_JOINED(twice_, TWICE_END, name)
#define TWICE_HANDLE TWICE()
#define TWICE_FIRST(name) TWICE_JOINED(gp_, TWICE_END, name)
#define TWICE_SECOND(name) TWICE_JOINED(twin_gp_, TWICE_END, name)

/* What is answered to a call of both channels, if they run. */
#define TWICE_BOTH(of_first, of_second)                                                              \
    (at->mode == TWICE_RUNS && at->memory != NULL ? twice_answer(&at->mode, (of_first), (of_second)) \
                                                  : twice_idle(&at->mode))

/* A call whose answer has to be looked at. */
#define TWICE_CALL __attribute__((warn_unused_result)) static inline uint8_t

/* The body of an init, with what it is given besides the handle. */
#define TWICE_INIT(name, outputs_len, ...)                                                       \
    uint8_t answer = TWICE(_prepare)(at);                                                        \
    if (answer == GP_OK)                                                                         \
        answer = twice_answer(&at->mode, TWICE_FIRST(name)(&at->memory->first.end, __VA_ARGS__), \
                              TWICE_SECOND(name)(&at->memory->second.end, __VA_ARGS__));         \
    return TWICE(_begin)(at, answer, (outputs_len))

/* A reader of one number. */
#define TWICE_NUMBER(name, type)                                                                 \
    TWICE_CALL TWICE(name)(TWICE_HANDLE *at, type *to) {                                         \
        type first = 0, second = 0;                                                              \
        const uint8_t answer = TWICE_BOTH(TWICE_FIRST(name)(&at->memory->first.end, &first),     \
                                          TWICE_SECOND(name)(&at->memory->second.end, &second)); \
        return twice_read(&at->mode, answer, &first, &second, to, sizeof *to);                   \
    }

/* A reader of safe data. No end has as many as fit here. */
#define TWICE_BYTES(name)                                                                            \
    TWICE_CALL TWICE(name)(TWICE_HANDLE *at, uint8_t *to, size_t to_len) {                           \
        uint8_t first[GP_MOST_DATA + 1] = {0}, second[GP_MOST_DATA + 1] = {0};                       \
        const size_t len = to_len < sizeof first ? to_len : sizeof first;                            \
        const uint8_t answer = TWICE_BOTH(TWICE_FIRST(name)(&at->memory->first.end, first, len),     \
                                          TWICE_SECOND(name)(&at->memory->second.end, second, len)); \
        return twice_read(&at->mode, answer, first, second, to, len);                                \
    }

#ifdef __cplusplus
extern "C" {
#endif
extern __typeof__(gp_version) twin_gp_version;
extern __typeof__(gp_slave_init) twin_gp_slave_init;
extern __typeof__(gp_slave_init_exact) twin_gp_slave_init_exact;
extern __typeof__(gp_slave_init_ranges) twin_gp_slave_init_ranges;
extern __typeof__(gp_master_init) twin_gp_master_init;
extern __typeof__(gp_master_accept) twin_gp_master_accept;
extern __typeof__(gp_master_due) twin_gp_master_due;
extern __typeof__(gp_master_reply) twin_gp_master_reply;
#ifdef __cplusplus
}
#endif

/* ---- A slave ---- */

#define TWICE_END slave
#include "twice_end.h"

TWICE_CALL twice_slave_init(twice_slave *at, const gp_slave_settings *set, uint16_t app_len) {
    TWICE_INIT(_init, set->master_len, set, app_len);
}

TWICE_CALL twice_slave_init_exact(twice_slave *at, const gp_slave_settings *set, const uint8_t *app, size_t app_len) {
    TWICE_INIT(_init_exact, set->master_len, set, app, app_len);
}

TWICE_CALL twice_slave_init_ranges(twice_slave *at, const gp_slave_settings *set, const uint8_t *low, size_t low_len,
                                   const uint8_t *high, size_t high_len) {
    TWICE_INIT(_init_ranges, set->master_len, set, low, low_len, high, high_len);
}

#undef TWICE_END

/* ---- A master ---- */

#define TWICE_END master
#include "twice_end.h"

TWICE_CALL twice_master_init(twice_master *at, const gp_master_settings *set, const uint8_t *app, size_t app_len) {
    TWICE_INIT(_init, set->slave_len, set, app, app_len);
}

TWICE_CALL twice_master_accept(twice_master *at, const uint8_t *frame, size_t frame_len, gp_did *did) {
    twice_master_memory *const both = at->memory;
    return twice_master_stepped(
        at,
        TWICE_BOTH(gp_master_accept(&both->first.end, frame, frame_len, &both->first.did),
                   twin_gp_master_accept(&both->second.end, frame, frame_len, &both->second.did)),
        NULL, did);
}

TWICE_NUMBER(_due, uint8_t)

TWICE_CALL twice_master_reply(twice_master *at, gp_frame *out) {
    twice_master_memory *const both = at->memory;
    return twice_master_stepped(at,
                                TWICE_BOTH(gp_master_reply(&both->first.end, &both->first.out),
                                           twin_gp_master_reply(&both->second.end, &both->second.out)),
                                out, NULL);
}

TWICE_CALL twice_master_inputs(twice_master *at, uint8_t *inputs, size_t inputs_len) {
    return twice_master_outputs(at, inputs, inputs_len);
}

#undef TWICE_END
#undef TWICE_BYTES
#undef TWICE_NUMBER
#undef TWICE_INIT
#undef TWICE_CALL
#undef TWICE_BOTH
#undef TWICE_SECOND
#undef TWICE_FIRST
#undef TWICE_HANDLE
#undef TWICE
#undef TWICE_JOINED
#undef TWICE_JOIN

#endif
