/*
 * How the calls on a machine of 32 bits hand over what they are given: they copy it into places in the module's memory,
 * and copy back what the module may have written there. There is one memory at a time: no two calls may overlap.
 */
#ifndef GATEPAST_PLACES_H
#define GATEPAST_PLACES_H

#include <string.h>

enum { LIVE = 8, HANDLE_SIZE = 16, PLACE_SIZE = 1024, PLACES = 6 };
/* Behind all that the module uses: a handle, and a place for each of the other parameters. */
enum { HANDLE = @MODULE_BYTES@, FIRST_PLACE = HANDLE + HANDLE_SIZE, PLACES_END = FIRST_PLACE + PLACES * PLACE_SIZE };
#define PLACE(number) (FIRST_PLACE + (number) * PLACE_SIZE)

_Static_assert(sizeof(gp_terms) <= PLACE_SIZE && sizeof(size_t) == 4, "places");

static uint8_t *memory; /* of the module */

/* The bytes that are read of so many. More than these are refused by their number, and not read. */
static inline size_t read_of(size_t len, size_t each) {
    return len < GP_MOST_APP / each ? len * each : GP_MOST_APP;
}

static inline void put(size_t place, const void *from, size_t len) {
    if (len != 0) memcpy(memory + place, from, len);
}

static inline void get(void *to, size_t place, size_t len) {
    if (len != 0) memcpy(to, memory + place, len);
}

/* In the module a pointer and a length have 64 bits, the lowest byte first. */
static inline void put_number(size_t place, uint32_t number) {
    for (size_t i = 0; i < 8; i++) memory[place + i] = i < 4 ? (uint8_t)(number >> (8 * i)) : 0;
}

static inline uint32_t number_at(size_t place) {
    uint32_t number = 0;
    for (size_t i = 0; i < 4; i++) number |= (uint32_t)memory[place + i] << (8 * i);
    return number;
}

static inline void put_handle(size_t at, bool live) {
    put_number(HANDLE, at);
    put_number(HANDLE + LIVE, live);
}

/* The module's own line, without its memory: there may be none yet. */
static inline uint8_t tell_build(uint8_t *text, size_t text_len) {
    static const char line[] = "@BUILD@\n";
    _Static_assert(sizeof line == GP_BUILD_LENGTH + 1, "the line");
    if (text_len != GP_BUILD_LENGTH) return GP_BAD_LENGTH;
    memcpy(text, line, GP_BUILD_LENGTH);
    return GP_OK;
}

static inline bool is_live(void) {
    return memory[HANDLE + LIVE] != 0;
}

static inline void put_frame(size_t place, const gp_frame *frame) {
    put_number(place, frame->len);
    put(place + 8, frame->bytes, sizeof frame->bytes);
}

static inline void get_frame(gp_frame *frame, size_t place) {
    frame->len = number_at(place);
    get(frame->bytes, place + 8, sizeof frame->bytes);
}

#endif
