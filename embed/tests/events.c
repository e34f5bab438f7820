/*
 * Random events at both ends, always the same ones, and a hash of all that the calls returned and wrote: events EVENTS
 * Archives that print the same did the same. The ends are made anew every 3,000 events, with other lengths, parameters
 * and profiles. Most frames are those of the peer in turn; others come late, altered or invented.
 */
#include <gatepast.h>
#include <inttypes.h>
#include <stdio.h>
#include <stdlib.h>
#include <string.h>

enum { MASTER, SLAVE, LIFE = 3000, LINES = 10 };

static gp_slave_memory slave_memory;
static gp_master_memory master_memory;
static gp_slave slave = GP_SLAVE_IN(&slave_memory);
static gp_master master = GP_MASTER_IN(&master_memory);
static gp_frame sent[2][2]; /* the last two frames of each, the newest first */
static gp_frame out;
static gp_did did;
static gp_terms terms;
static uint8_t load[GP_MOST_DATA], seen[2][GP_MOST_DATA];
static uint16_t lens[2]; /* what each sends */
static uint64_t hash = UINT64_C(0xCBF29CE484222325), chance = 1;
static unsigned long taken, resets;

/* The hash is FNV-1a, by bytes. */
static void add(const uint8_t *bytes, size_t len) {
    for (size_t i = 0; i < len; i++) hash = (hash ^ bytes[i]) * UINT64_C(0x100000001B3);
}

static void add_number(uint32_t number) {
    const uint8_t bytes[4] = {(uint8_t)number, (uint8_t)(number >> 8), (uint8_t)(number >> 16),
                              (uint8_t)(number >> 24)};
    add(bytes, sizeof bytes);
}

static uint32_t next_word(void) {
    chance ^= chance << 13;
    chance ^= chance >> 7;
    chance ^= chance << 17;
    return (uint32_t)(chance >> 16);
}

static void invent(uint8_t *bytes, size_t len) {
    for (size_t i = 0; i < len; i++) bytes[i] = (uint8_t)next_word();
}

/* What a step answered, and what it did. Also the bytes behind the lengths are compared: they stay as they were. */
static void stepped(int end, uint8_t answer) {
    add_number(answer);
    add_number((uint32_t)out.len);
    add(out.bytes, sizeof out.bytes);
    const uint8_t parts[8] = {did.took, did.passed,  did.sent,     did.reset,
                              did.code, did.dropped, did.load_len, did.used};
    add(parts, sizeof parts);
    add(did.load, sizeof did.load);
    if (answer != GP_OK) return;
    if (out.len != 0) {
        sent[end][1] = sent[end][0];
        sent[end][0] = out;
    }
    taken += did.took == GP_COMMAND_PROCESS_DATA;
    resets += did.reset != GP_NO_RESET;
    if (did.reset != GP_NO_RESET)
        add_number(end == SLAVE ? gp_slave_nonce(&slave, next_word() % 65536)
                                : gp_master_nonce(&master, next_word() % 65536));
}

static void deliver(int to, const uint8_t *frame, size_t len) {
    if (to == SLAVE) {
        stepped(SLAVE, gp_slave_deliver(&slave, frame, len, &out, &did));
    } else if (next_word() % 2 == 0) {
        stepped(MASTER, gp_master_deliver(&master, frame, len, &out, &did));
    } else {
        out.len = 0;
        stepped(MASTER, gp_master_accept(&master, frame, len, &did));
        add_number(gp_master_put(&master, load, lens[MASTER]));
        did.reset = GP_NO_RESET;
        stepped(MASTER, gp_master_reply(&master, &out));
    }
}

static void deliver_altered(int to, const gp_frame *frame) {
    static uint8_t bytes[GP_MOST_FRAME];
    size_t len = frame->len;
    memcpy(bytes, frame->bytes, sizeof bytes);
    const uint32_t word = next_word();
    if (word % 8 == 0) len = (word >> 8) % (GP_MOST_FRAME + 1);
    if (word % 8 == 1) invent(bytes, sizeof bytes);
    if (word % 8 > 1 && len != 0) bytes[(word >> 8) % len] ^= (uint8_t)(1u << ((word >> 16) % 8));
    deliver(to, bytes, len);
}

/* What readers say of both ends. */
static void read_all(void) {
    uint8_t states[3] = {0};
    uint16_t ages[2] = {0};
    add_number(gp_slave_outputs(&slave, seen[SLAVE], lens[MASTER]));
    add_number(gp_master_outputs(&master, seen[MASTER], lens[SLAVE]));
    add_number(gp_slave_state(&slave, &states[0]));
    add_number(gp_master_state(&master, &states[1]));
    add_number(gp_master_due(&master, &states[2]));
    add_number(gp_slave_age(&slave, &ages[0]));
    add_number(gp_master_age(&master, &ages[1]));
    add(seen[SLAVE], sizeof seen[SLAVE]);
    add(seen[MASTER], sizeof seen[MASTER]);
    add(states, sizeof states);
    add_number(ages[0] + (uint32_t)ages[1] * 65536);
}

static void read_terms(int end) {
    add_number(end == SLAVE ? gp_slave_terms(&slave, &terms) : gp_master_terms(&master, &terms));
    add_number(terms.conn + (uint32_t)terms.address * 65536);
    add_number(terms.watchdog + (uint32_t)terms.word * 65536);
    add_number(terms.app_len + (uint32_t)terms.profile * 65536);
    add(terms.app, sizeof terms.app);
}

static void do_event(uint32_t word) {
    const int at = (word >> 8) % 2 ? SLAVE : MASTER;
    const unsigned rest = word % 128;
    if (rest < 102) deliver(rest % 2, sent[1 - rest % 2][0].bytes, sent[1 - rest % 2][0].len);
    else if (rest < 106) stepped(MASTER, gp_master_tick(&master, &out, &did));
    else if (rest < 110) stepped(SLAVE, gp_slave_tick(&slave, &out, &did));
    else if (rest < 112) deliver(at, sent[1 - at][1].bytes, sent[1 - at][1].len);
    else if (rest < 113) deliver_altered(at, &sent[1 - at][0]);
    else if (rest < 123) invent(load, sizeof load);
    else if (rest < 124)
        add_number(at == SLAVE ? gp_slave_hold(&slave, word >> 31) : gp_master_hold(&master, word >> 31));
    else if (rest < 127) read_terms(at);
    else if (word >> 30 == 0)
        stepped(at, at == SLAVE ? gp_slave_reset(&slave, &out, &did) : gp_master_reset(&master, &out, &did));
    add_number(gp_slave_put(&slave, load, lens[SLAVE]));
    read_all();
}

static uint16_t some_len(void) {
    const uint32_t word = next_word();
    return (uint16_t)(word % 8 == 0 ? 1 : word % 8 < 4 ? 2 : 2 * (1 + (word >> 8) % (GP_MOST_DATA / 2)));
}

/* Ends what was there, and makes both ends anew: most of them fit each other. */
static void begin(void) {
    static uint8_t app[GP_MOST_APP];
    const uint32_t word = next_word();
    const uint16_t profile = (uint16_t)(1 + word % 2),
                   app_len = (uint16_t)((word >> 8) % 8 == 0 ? (word >> 16) % 513 : (word >> 16) % 9);
    lens[MASTER] = some_len();
    lens[SLAVE] = some_len();
    invent(app, sizeof app);
    const gp_slave_settings ss = {.master_len = lens[MASTER],
                                  .slave_len = lens[SLAVE],
                                  .address = 2,
                                  .hand = 40,
                                  .most = 1000,
                                  .profile = profile,
                                  .nonce = next_word() % 65536,
                                  .word = 5};
    const gp_master_settings ms = {.master_len = lens[MASTER],
                                   .slave_len = lens[SLAVE],
                                   .conn = 1,
                                   .address = 2,
                                   .watchdog = (uint16_t)(1 + (word >> 4) % 64 * 16),
                                   .profile = profile,
                                   .nonce = next_word() % 65536,
                                   .word = 5};
    gp_slave_end(&slave);
    gp_master_end(&master);
    memset(sent, 0, sizeof sent);
    memset(&out, 0, sizeof out);
    add_number(word % 3 == 0 ? gp_slave_init(&slave, &ss, app_len) : gp_slave_init_exact(&slave, &ss, app, app_len));
    add_number(gp_master_init(&master, &ms, app, app_len));
    stepped(MASTER, gp_master_tick(&master, &out, &did));
}

int main(int count, char **words) {
    if (count != 2) return 2;
    const unsigned long events = strtoul(words[1], NULL, 10);
    for (unsigned long i = 0; i < events; i++) {
        if (i % LIFE == 0) begin();
        do_event(next_word());
        if ((i + 1) % (events / LINES) == 0)
            printf("%lu events, %lu data taken, %lu resets: %016" PRIx64 "\n", i + 1, taken, resets, hash);
    }
    return 0;
}
