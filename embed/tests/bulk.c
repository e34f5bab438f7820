/*
 * Runs both ends over the schedule of a number, and writes the summary that `fsoe_tool bulk <number> <events>` writes, but
 * for its last line: docs/formats.md, "The schedule of a number".
 */
#include <gatepast.h>
#include <inttypes.h>
#include <stdio.h>
#include <stdlib.h>
#include <string.h>

enum { MASTER, SLAVE, LEN = 2 };

/* The generator PCG32, seeded by a number as the crate rand_pcg does. */
typedef struct pcg {
    uint64_t state, increment;
} pcg;

static const uint64_t multiplier = UINT64_C(6364136223846793005);

static uint32_t mixed(uint64_t state) {
    const uint32_t word = (uint32_t)(((state >> 18) ^ state) >> 27);
    const unsigned turn = (unsigned)(state >> 59);
    return turn == 0 ? word : word >> turn | word << (32 - turn);
}

static pcg seeded(uint64_t number) {
    uint64_t halves[2] = {0, 0};
    for (unsigned i = 0; i < 4; i++) {
        number = number * multiplier + UINT64_C(11634580027462260723);
        halves[i / 2] |= (uint64_t)mixed(number) << (32 * (i % 2));
    }
    pcg g = {halves[0], halves[1] | 1};
    g.state += g.increment;
    g.state = g.state * multiplier + g.increment;
    return g;
}

static uint32_t next_word(pcg *g) {
    const uint64_t state = g->state;
    g->state = state * multiplier + g->increment;
    return mixed(state);
}

/* Both ends, the last two frames of each, the newest first, and what is counted of each. */
static gp_slave_memory slave_memory;
static gp_master_memory master_memory;
static gp_slave slave;
static gp_master master;
static gp_frame sent[2][2];
static unsigned long taken[2], resets[2], drops[2];

static void must(int answer, const char *what) {
    if (answer == GP_OK) return;
    fprintf(stderr, "bulk: %s answered %d\n", what, answer);
    exit(1);
}

static void note(int end, const gp_frame *out, const gp_did *did) {
    if (out->len != 0) {
        sent[end][1] = sent[end][0];
        sent[end][0] = *out;
    }
    taken[end] += did->took == GP_COMMAND_PROCESS_DATA || did->took == GP_COMMAND_FAIL_SAFE_DATA;
    resets[end] += did->reset != GP_NO_RESET;
    drops[end] += did->dropped != GP_NOT_DROPPED;
}

static void deliver(int to, const gp_frame *frame) {
    static gp_frame out;
    static gp_did did;
    if (to == SLAVE)
        must(gp_slave_deliver(&slave, frame->bytes, frame->len, &out, &did), "gp_slave_deliver");
    else
        must(gp_master_deliver(&master, frame->bytes, frame->len, &out, &did), "gp_master_deliver");
    note(to, &out, &did);
}

/* The last frame of the peer comes to an end with one bit turned. */
static void deliver_altered(int to, uint32_t word) {
    gp_frame frame = sent[1 - to][0];
    frame.bytes[(word >> 8) % 7] ^= (uint8_t)(1u << ((word >> 16) % 8));
    deliver(to, &frame);
}

static void tick(int at) {
    static gp_frame out;
    static gp_did did;
    if (at == SLAVE)
        must(gp_slave_tick(&slave, &out, &did), "gp_slave_tick");
    else
        must(gp_master_tick(&master, &out, &did), "gp_master_tick");
    note(at, &out, &did);
}

static void reset(int at) {
    static gp_frame out;
    static gp_did did;
    if (at == SLAVE)
        must(gp_slave_reset(&slave, &out, &did), "gp_slave_reset");
    else
        must(gp_master_reset(&master, &out, &did), "gp_master_reset");
    note(at, &out, &did);
}

static void put(int at, uint32_t word) {
    const uint8_t load[LEN] = {(uint8_t)(word >> 8), (uint8_t)(word >> 16)};
    must(at == SLAVE ? gp_slave_put(&slave, load, LEN) : gp_master_put(&master, load, LEN), "a put");
}

static void hold(int at, bool failsafe) {
    must(at == SLAVE ? gp_slave_hold(&slave, failsafe) : gp_master_hold(&master, failsafe), "a hold");
}

static void do_event(uint32_t word) {
    const unsigned rest = word % 64;
    const bool bit_8 = (word >> 8) % 2 == 1;
    if (rest < 22) deliver(SLAVE, &sent[MASTER][0]);
    else if (rest < 44) deliver(MASTER, &sent[SLAVE][0]);
    else if (rest < 48) tick(MASTER);
    else if (rest < 52) tick(SLAVE);
    else if (rest < 53) deliver(SLAVE, &sent[MASTER][1]);
    else if (rest < 54) deliver(MASTER, &sent[SLAVE][1]);
    else if (rest < 55) deliver_altered(SLAVE, word);
    else if (rest < 56) deliver_altered(MASTER, word);
    else if (rest < 58) put(MASTER, word);
    else if (rest < 60) put(SLAVE, word);
    else if (rest < 61) hold(MASTER, bit_8);
    else if (rest < 62) hold(SLAVE, bit_8);
    else if (rest < 63) must(gp_master_nonce(&master, word >> 16), "gp_master_nonce");
    else reset(bit_8 ? SLAVE : MASTER);
}

static void begin(void) {
    const gp_slave_settings ss = {.master_len = LEN, .slave_len = LEN, .address = 2, .hand = 100, .most = 1000, .profile = 1, .nonce = 2};
    const gp_master_settings ms = {.master_len = LEN, .slave_len = LEN, .conn = 1, .address = 2, .watchdog = 100, .profile = 1, .nonce = 1};
    slave = (gp_slave)GP_SLAVE_IN(&slave_memory);
    master = (gp_master)GP_MASTER_IN(&master_memory);
    must(gp_slave_init(&slave, &ss, 0), "gp_slave_init");
    must(gp_master_init(&master, &ms, NULL, 0), "gp_master_init");
}

static const char *state_name(int end) {
    static const char *const names[] = {"Reset", "Session", "Connection", "Parameter", "Data"};
    uint8_t state = 0;
    must(end == SLAVE ? gp_slave_state(&slave, &state) : gp_master_state(&master, &state), "a state");
    return names[state];
}

int main(int count, char **words) {
    if (count != 3) return 2;
    const uint64_t number = strtoull(words[1], NULL, 10), events = strtoull(words[2], NULL, 10);
    pcg g = seeded(number);
    begin();
    for (uint64_t i = 1; i <= events; i++) {
        if (number != 0 && i > 4)
            do_event(next_word(&g));
        else if (i == 1)
            tick(MASTER);
        else
            deliver(i % 2 == 0 ? SLAVE : MASTER, &sent[i % 2 == 0 ? MASTER : SLAVE][0]);
    }
    printf("bulk %" PRIu64 " %" PRIu64 "\n", number, events);
    printf("data master %lu slave %lu\n", taken[MASTER], taken[SLAVE]);
    printf("resets master %lu slave %lu\n", resets[MASTER], resets[SLAVE]);
    printf("drops master %lu slave %lu\n", drops[MASTER], drops[SLAVE]);
    printf("state %s %s\n", state_name(MASTER), state_name(SLAVE));
    return 0;
}
