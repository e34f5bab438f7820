/*
 * Both ends over a channel that loses, repeats and alters frames. Whatever it does, the outputs of the slave are zeros, or
 * what its master put into the last frame taken. If frames stop, they are zeros within the watchdog.
 */
#include <gatepast.h>
#include <stdio.h>
#include <stdlib.h>
#include <string.h>

enum { LEN = 4, WATCHDOG = 20, MILLISECONDS = 100000 };

/* The channel: one frame each way. */
typedef struct channel {
    gp_frame frame;
    gp_frame last; /* the last one that was sent, to come again */
    uint32_t chance;
} channel;

static uint32_t by_chance(channel *c) {
    c->chance ^= c->chance << 13;
    c->chance ^= c->chance >> 17;
    c->chance ^= c->chance << 5;
    return c->chance;
}

static void send(channel *c, const gp_frame *frame) {
    if (frame->len == 0) return;
    c->frame = c->last = *frame;
    uint32_t word = by_chance(c);
    if (word % 1000 < 3) c->frame.len = 0;                                                      /* lost */
    if (word % 1000 == 3) c->frame.bytes[(word >> 10) % frame->len] ^= (uint8_t)(1 + word / 7919 % 255); /* altered */
}

/* The frame that comes out, if one does. It may be the last one again. */
static bool receive(channel *c, gp_frame *frame) {
    if (by_chance(c) % 1000 == 0) c->frame = c->last;
    *frame = c->frame;
    c->frame.len = 0;
    return frame->len != 0;
}

static void must(bool holds, const char *what) {
    if (holds) return;
    fprintf(stderr, "pair: wrong: %s\n", what);
    exit(1);
}

int main(void) {
    static gp_slave_memory slave_memory;
    static gp_master_memory master_memory;
    static gp_slave slave = GP_SLAVE_IN(&slave_memory);
    static gp_master master = GP_MASTER_IN(&master_memory);
    static channel to_slave = {.chance = 1}, to_master = {.chance = 2};
    static gp_frame in, out;
    static gp_did did;
    static const uint8_t zeros[LEN];
    uint32_t slave_id = 2, master_id = 1;
    unsigned taken = 0, sessions = 0, silent = 0;
    uint8_t outputs[LEN] = {0}, last[LEN] = {0};
    const uint8_t app[3] = {10, 20, 30}, low[3] = {0, 20, 0}, high[3] = {10, 20, 255};
    const gp_slave_settings slave_settings = {
        .master_len = LEN, .slave_len = LEN, .address = 7, .hand = WATCHDOG, .most = WATCHDOG, .profile = 2, .nonce = slave_id, .word = 5};
    const gp_master_settings master_settings = {
        .master_len = LEN, .slave_len = LEN, .conn = 1, .address = 7, .watchdog = WATCHDOG, .profile = 2, .nonce = master_id, .word = 5};
    must(gp_version() == GP_VERSION, "the version of the archive");
    must(gp_slave_init_ranges(&slave, &slave_settings, low, sizeof low, high, sizeof high) == GP_OK, "the slave's settings");
    must(gp_master_init(&master, &master_settings, app, sizeof app) == GP_OK, "the master's settings");
    for (uint32_t now = 0; now < MILLISECONDS; now++) {
        const uint8_t order[LEN] = {(uint8_t)now, (uint8_t)(now >> 8), (uint8_t)(now >> 16), 1};
        must(gp_master_put(&master, order, sizeof order) == GP_OK, "a put at the master");
        must(gp_slave_put(&slave, order, sizeof order) == GP_OK, "a put at the slave");
        if (receive(&to_slave, &in)) {
            must(gp_slave_deliver(&slave, in.bytes, in.len, &out, &did) == GP_OK, "a frame at the slave");
            send(&to_master, &out);
            if (did.took == GP_COMMAND_SESSION) sessions++;
            if (did.reset) must(gp_slave_nonce(&slave, slave_id += 2) == GP_OK, "a session id at the slave");
            if (did.took == GP_COMMAND_PROCESS_DATA) {
                taken++;
                silent = 0;
                memcpy(last, did.load, LEN);
            }
        }
        must(gp_slave_tick(&slave, &out, &did) == GP_OK, "a tick at the slave");
        send(&to_master, &out);
        if (did.reset) must(gp_slave_nonce(&slave, slave_id += 2) == GP_OK, "a session id at the slave");
        must(gp_slave_outputs(&slave, outputs, LEN) == GP_OK, "the outputs");
        must(memcmp(outputs, zeros, LEN) == 0 || memcmp(outputs, last, LEN) == 0, "outputs that nobody sent");
        must(++silent <= WATCHDOG || memcmp(outputs, zeros, LEN) == 0, "outputs that outlast the watchdog");
        if (receive(&to_master, &in)) {
            must(gp_master_deliver(&master, in.bytes, in.len, &out, &did) == GP_OK, "a frame at the master");
            send(&to_slave, &out);
            if (did.reset) must(gp_master_nonce(&master, ++master_id) == GP_OK, "a session id at the master");
        }
        must(gp_master_tick(&master, &out, &did) == GP_OK, "a tick at the master");
        send(&to_slave, &out);
        if (did.reset) must(gp_master_nonce(&master, ++master_id) == GP_OK, "a session id at the master");
    }
    printf("%d milliseconds: %u frames of data taken in %u sessions\n", MILLISECONDS, taken, sessions);
    must(gp_slave_end(&slave) == GP_OK && gp_master_end(&master) == GP_OK, "the end");
    return 0;
}
