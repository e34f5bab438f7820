/*
 * Calls of many kinds at both ends, for bench/worst to find the most instructions of one: worst CALL
 * Each time that CALL is called, a line says over which lengths, in which state and with which input. The inputs are
 * meant to find the worst: all states, right, altered, repeated and invented frames, expiries, the longest parameters,
 * and frames whose number is stepped twice. After each trial the end is as before it: its memory is copied back.
 */
#include <gatepast.h>
#include <stdio.h>
#include <stdlib.h>
#include <string.h>

enum { MASTER, SLAVE, WATCHDOG = 3, EXCHANGES_OF_DATA = 3, MOST_EXCHANGES = 600 };

typedef struct both {
    gp_slave_memory slave_memory;
    gp_master_memory master_memory;
    gp_slave slave;
    gp_master master;
} both;

static both ends;
static gp_frame out;
static gp_did did;
static gp_terms terms;
static uint8_t data[GP_MOST_APP], seen[GP_MOST_DATA];
static uint16_t lens[2];          /* what each sends */
static gp_frame sent[2], came[2]; /* the last frame of each, and the last one that came to it */
static const char *wanted, *input = "";

/* Says that a call comes, if it is the one that is counted. */
static void comes(const char *call) {
    static const char *const names[] = {"Reset", "Session", "Connection", "Parameter", "Data"};
    if (strcmp(call, wanted) != 0) return;
    uint8_t state = GP_RESET;
    if (strncmp(call, "gp_slave", 8) == 0 ? gp_slave_state(&ends.slave, &state) : gp_master_state(&ends.master, &state))
        state = GP_RESET;
    printf("lengths %d and %d, %s, %s\n", lens[MASTER], lens[SLAVE], names[state], input);
}

static void must(uint8_t answered) {
    if (answered == GP_OK) return;
    fprintf(stderr, "worst: a call answered %d\n", answered);
    exit(1);
}

#define CALL(name, ...) (comes(#name), must(name(__VA_ARGS__)))

static void deliver(int to, const uint8_t *frame, size_t len, bool in_two) {
    if (to == SLAVE) CALL(gp_slave_deliver, &ends.slave, frame, len, &out, &did);
    else if (!in_two) CALL(gp_master_deliver, &ends.master, frame, len, &out, &did);
    else {
        uint8_t due = 0;
        CALL(gp_master_accept, &ends.master, frame, len, &did);
        must(gp_master_due(&ends.master, &due));
        out.len = 0;
        if (due) CALL(gp_master_reply, &ends.master, &out);
    }
}

static void tick(int at) {
    if (at == SLAVE) CALL(gp_slave_tick, &ends.slave, &out, &did);
    else CALL(gp_master_tick, &ends.master, &out, &did);
}

static void reset(int at) {
    if (at == SLAVE) CALL(gp_slave_reset, &ends.slave, &out, &did);
    else CALL(gp_master_reset, &ends.master, &out, &did);
}

static void put(int at) {
    if (at == SLAVE) CALL(gp_slave_put, &ends.slave, data, lens[SLAVE]);
    else CALL(gp_master_put, &ends.master, data, lens[MASTER]);
}

static void hold(int at, bool on) {
    must(at == SLAVE ? gp_slave_hold(&ends.slave, on) : gp_master_hold(&ends.master, on));
}

/* The CRC_0 of the answer to a frame, if these are the first two bytes that are sent; the end is left as it was. */
static unsigned crc_of_answer(int at, const gp_frame *frame, unsigned two) {
    const both before = ends;
    data[0] = (uint8_t)two;
    data[1] = (uint8_t)(two >> 8);
    put(at);
    deliver(at, frame->bytes, frame->len, false);
    ends = before;
    return out.len < 7 ? 0 : (unsigned)(out.bytes[3] | out.bytes[4] << 8);
}

/* Puts the two bytes for which the answer would have the CRC_0 of the frame before, so that its number is stepped once more.
   The CRC of a sum of two inputs is the sum of their CRCs. */
static void put_stepped_twice(int at, const gp_frame *frame, unsigned last_crc) {
    unsigned of_bit[16];
    const unsigned of_zero = crc_of_answer(at, frame, 0);
    for (int i = 0; i < 16; i++) of_bit[i] = crc_of_answer(at, frame, 1u << i) ^ of_zero;
    for (unsigned two = 0; two < 65536; two++) {
        unsigned crc = of_zero;
        for (int i = 0; i < 16; i++) crc ^= two >> i & 1 ? of_bit[i] : 0;
        if (crc != last_crc || crc_of_answer(at, frame, two) == last_crc) continue;
        data[0] = (uint8_t)two;
        data[1] = (uint8_t)(two >> 8);
        put(at);
        return;
    }
}

/* One input at one end, which is then as before. */
static void try_frame(int at, const char *what, const uint8_t *frame, size_t len) {
    const both before = ends;
    input = what;
    deliver(at, frame, len, false);
    ends = before;
    if (at == MASTER) deliver(at, frame, len, true);
    ends = before;
}

static void try_altered(int at, const gp_frame *frame, const char *what, size_t place) {
    static uint8_t bytes[GP_MOST_FRAME];
    memcpy(bytes, frame->bytes, sizeof bytes);
    bytes[place] ^= 0x11;
    try_frame(at, what, bytes, frame->len);
}

static void try_readers(int at) {
    input = "a reader or put";
    put(at);
    if (at == SLAVE) CALL(gp_slave_outputs, &ends.slave, seen, lens[MASTER]);
    else CALL(gp_master_outputs, &ends.master, seen, lens[SLAVE]);
    uint8_t state = GP_RESET;
    must(at == SLAVE ? gp_slave_state(&ends.slave, &state) : gp_master_state(&ends.master, &state));
    if (state != GP_DATA) return;
    if (at == SLAVE) CALL(gp_slave_terms, &ends.slave, &terms);
    else CALL(gp_master_terms, &ends.master, &terms);
}

/* All inputs before the frame that is right. */
static void try_all(int at, const gp_frame *frame, bool has_two) {
    static const uint8_t invented[GP_MOST_FRAME] = {0x2A, 1};
    const both before = ends;
    static uint8_t load[GP_MOST_APP];
    memcpy(load, data, sizeof load);
    try_frame(at, "the right frame", frame->bytes, frame->len);
    try_frame(at, "the frame before", came[at].bytes, came[at].len);
    try_frame(at, "an empty frame", frame->bytes, 0);
    try_frame(at, "an invented frame", invented, frame->len);
    try_altered(at, frame, "another command", 0);
    try_altered(at, frame, "other data in the first group", 1);
    try_altered(at, frame, "other data in the last group", frame->len - 5);
    try_altered(at, frame, "another CRC at the end", frame->len - 3);
    try_altered(at, frame, "another connection", frame->len - 1);
    hold(at, true);
    try_frame(at, "the right frame while held", frame->bytes, frame->len);
    ends = before;
    if (has_two && lens[at] > 1) {
        input = "a trial of two bytes";
        put_stepped_twice(at, frame, (unsigned)(sent[at].bytes[3] | sent[at].bytes[4] << 8));
        try_frame(at, "a number that is stepped twice", frame->bytes, frame->len);
        ends = before;
    }
    memcpy(data, load, sizeof load);
    try_readers(at);
    ends = before;
    input = "a reset";
    reset(at);
    ends = before;
    input = "ticks up to the expiry";
    for (int i = 0; i <= WATCHDOG; i++) tick(at);
    ends = before;
}

/* A session from its first frame until some data were exchanged. */
static void run_session(uint16_t app_len, int rule, uint16_t profile) {
    const gp_slave_settings ss = {.master_len = lens[MASTER],
                                  .slave_len = lens[SLAVE],
                                  .address = 2,
                                  .hand = WATCHDOG,
                                  .most = WATCHDOG,
                                  .profile = profile,
                                  .nonce = 0x2222,
                                  .word = 5};
    const gp_master_settings ms = {.master_len = lens[MASTER],
                                   .slave_len = lens[SLAVE],
                                   .conn = 1,
                                   .address = 2,
                                   .watchdog = WATCHDOG,
                                   .profile = profile,
                                   .nonce = 0x1111,
                                   .word = 5};
    memset(&ends, 0, sizeof ends);
    memset(sent, 0, sizeof sent);
    memset(came, 0, sizeof came);
    ends.slave = (gp_slave)GP_SLAVE_IN(&ends.slave_memory);
    ends.master = (gp_master)GP_MASTER_IN(&ends.master_memory);
    input = "an init";
    if (rule == 0) CALL(gp_slave_init, &ends.slave, &ss, app_len);
    else if (rule == 1) CALL(gp_slave_init_exact, &ends.slave, &ss, data, app_len);
    else CALL(gp_slave_init_ranges, &ends.slave, &ss, data, app_len, data, app_len);
    CALL(gp_master_init, &ends.master, &ms, data, app_len);
    input = "the first tick";
    tick(MASTER);
    sent[MASTER] = out;
    uint8_t state = GP_RESET;
    for (int i = 0, of_data = 0; of_data < EXCHANGES_OF_DATA; i++) {
        if (i > MOST_EXCHANGES) must(GP_NOT_IN_DATA);
        /* trials at the beginning and at the end of long downloads, and every few pieces */
        const bool tries = i < 10 || i % 64 == 0 || state == GP_DATA;
        for (int to = SLAVE; to >= MASTER; to--) {
            if (tries) try_all(to, &sent[1 - to], of_data == 2);
            input = "a session";
            came[to] = sent[1 - to];
            deliver(to, came[to].bytes, came[to].len, false);
            sent[to] = out;
        }
        must(gp_slave_state(&ends.slave, &state));
        of_data += state == GP_DATA;
    }
}

int main(int count, char **words) {
    static const uint16_t some[] = {1, 2, 30, 126};
    if (count != 2) return 2;
    wanted = words[1];
    for (size_t i = 0; i < sizeof data; i++) data[i] = (uint8_t)(37 * i + 1);
    for (size_t m = 0; m < sizeof some / sizeof *some; m++)
        for (size_t s = 0; s < sizeof some / sizeof *some; s++) {
            lens[MASTER] = some[m];
            lens[SLAVE] = some[s];
            for (uint16_t profile = 1; profile <= 2; profile++) run_session(3, 1, profile);
            for (int rule = 0; rule < 3; rule++)
                if (m == s || rule == 2) run_session(GP_MOST_APP, rule, 2);
        }
    return 0;
}
