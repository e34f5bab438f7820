/*
 * Two channels that compare stop at each difference. Each line below calls one channel alone, and then both: the second
 * call has to stop, with zeros and without a frame, as each later one. Without the first call the second one is done.
 */
#include "../examples/twice.h"

#include <stdio.h>
#include <stdlib.h>

enum { SLAVE, MASTER };
enum { ADDRESS = 2, MOST_EXCHANGES = 200, APP_LEN = 3 };

static twice_slave_memory slave_memory;
static twice_master_memory master_memory;
static twice_slave slave;
static twice_master master;
static gp_slave_settings of_slave;
static gp_master_settings of_master;
static gp_frame to_slave, to_master, out; /* the frames that come next */
static gp_did did;
static gp_terms terms;
static uint8_t bytes[GP_MOST_DATA], offer[GP_MOST_DATA], state, flag, due;
static uint16_t age;
static unsigned tried;

static const uint8_t app[APP_LEN] = {1, 2, 3}, data[GP_MOST_DATA] = {5}, other[GP_MOST_DATA] = {6}, zeros[GP_MOST_DATA];
static const uint8_t *load = data; /* what both ends put */

static void must(int line, bool holds) {
    tried++;
    if (holds) return;
    fprintf(stderr, "twice: line %d doesn't hold with lengths %d and %d\n", line, of_slave.master_len,
            of_slave.slave_len);
    exit(1);
}

#define MUST(what) must(__LINE__, (what))

static bool each_is(const void *at, size_t len, uint8_t one, uint8_t another) {
    const uint8_t *each = at;
    for (size_t i = 0; i < len; i++)
        if (each[i] != one && each[i] != another) return false;
    return true;
}

static bool is_zeros(const void *at, size_t len) {
    return each_is(at, len, 0, 0);
}

#define BLANK(what) each_is(&(what), sizeof(what), 0, 0xFF)

/* Nothing left a call that stopped: what it wrote is zeros, and all else is what fill wrote. */
static bool nothing_left(void) {
    return BLANK(out.len) && BLANK(did) && BLANK(terms) && BLANK(bytes) && BLANK(state) && BLANK(age);
}

static void exchange(void) {
    MUST(twice_slave_deliver(&slave, to_slave.bytes, to_slave.len, &to_master, &did) == GP_OK);
    MUST(twice_master_deliver(&master, to_master.bytes, to_master.len, &to_slave, &did) == GP_OK);
}

/* Fills what calls write to. */
static void fill(void) {
    memset(bytes, 0xFF, sizeof bytes), memset(offer, 0xFF, sizeof offer), memset(&terms, 0xFF, sizeof terms);
    memset(&out, 0xFF, sizeof out), memset(&did, 0xFF, sizeof did);
    state = flag = due = 0xFF, age = 0xFF;
}

/* Both ends anew in Data. The next step is this end's. */
static void begin(int end) {
    slave = (twice_slave)TWICE_SLAVE_IN(&slave_memory);
    master = (twice_master)TWICE_MASTER_IN(&master_memory);
    MUST(twice_slave_init_exact(&slave, &of_slave, app, APP_LEN) == GP_OK);
    MUST(twice_master_init(&master, &of_master, app, APP_LEN) == GP_OK);
    MUST(twice_slave_put(&slave, load, of_slave.slave_len) == GP_OK);
    MUST(twice_master_put(&master, load, of_slave.master_len) == GP_OK);
    MUST(twice_master_tick(&master, &to_slave, &did) == GP_OK);
    for (int i = 0; i < MOST_EXCHANGES && did.took != GP_COMMAND_PROCESS_DATA; i++) exchange();
    exchange();
    if (end == MASTER) MUST(twice_slave_deliver(&slave, to_slave.bytes, to_slave.len, &to_master, &did) == GP_OK);
    fill();
}

static uint8_t deliver(int end) {
    return end == SLAVE ? twice_slave_deliver(&slave, to_slave.bytes, to_slave.len, &out, &did)
                        : twice_master_deliver(&master, to_master.bytes, to_master.len, &out, &did);
}

/* A frame of another length is dropped: nothing but the states may tell the channels apart. */
static uint8_t deliver_short(int end) {
    return end == SLAVE ? twice_slave_deliver(&slave, data, 5, &out, &did)
                        : twice_master_deliver(&master, data, 5, &out, &did);
}

static uint8_t accept_and_reply(void) {
    static gp_did accepted;
    const uint8_t answer = twice_master_accept(&master, to_master.bytes, to_master.len, &accepted);
    return answer == GP_OK ? twice_master_reply(&master, &out) : answer;
}

static uint8_t tick(int end) {
    return end == SLAVE ? twice_slave_tick(&slave, &out, &did) : twice_master_tick(&master, &out, &did);
}

/* Both ends reset, and a session begins: its Session frames have both ids. */
static uint8_t next_session(int end) {
    if (twice_master_reset(&master, &to_slave, &did) != GP_OK) return TWICE_STOPPED;
    if (end == SLAVE) exchange();
    else MUST(twice_slave_deliver(&slave, to_slave.bytes, to_slave.len, &to_master, &did) == GP_OK);
    return deliver(end);
}

/* A slave and a master that stopped do nothing any more. */
static void slave_stays(void) {
    const uint16_t sent = of_slave.slave_len, got = of_slave.master_len;
    fill();
    MUST(deliver(SLAVE) == TWICE_STOPPED && out.len == 0 && is_zeros(&did, sizeof did));
    MUST(twice_slave_outputs(&slave, bytes, got) == TWICE_STOPPED && is_zeros(bytes, got));
    MUST(twice_slave_offer(&slave, offer, sent) == TWICE_STOPPED && is_zeros(offer, sent));
    MUST(twice_slave_state(&slave, &state) == TWICE_STOPPED && state == GP_RESET);
    MUST(twice_slave_held(&slave, &flag) == TWICE_STOPPED && flag == 0);
    MUST(twice_slave_age(&slave, &age) == TWICE_STOPPED && age == 0);
    MUST(twice_slave_terms(&slave, &terms) == TWICE_STOPPED && terms.conn == 0 && terms.app_len == 0);
    MUST(tick(SLAVE) == TWICE_STOPPED && twice_slave_reset(&slave, &out, &did) == TWICE_STOPPED && out.len == 0);
    MUST(twice_slave_put(&slave, data, sent) == TWICE_STOPPED && twice_slave_hold(&slave, true) == TWICE_STOPPED);
    MUST(twice_slave_nonce(&slave, 8) == TWICE_STOPPED && twice_slave_end(&slave) == TWICE_STOPPED);
    MUST(twice_slave_init(&slave, &of_slave, 0) == TWICE_STOPPED);
    MUST(twice_slave_init_exact(&slave, &of_slave, app, APP_LEN) == TWICE_STOPPED);
    MUST(twice_slave_init_ranges(&slave, &of_slave, app, APP_LEN, app, APP_LEN) == TWICE_STOPPED);
}

static void master_stays(void) {
    const uint16_t sent = of_slave.master_len, got = of_slave.slave_len;
    fill();
    MUST(deliver(MASTER) == TWICE_STOPPED && out.len == 0 && is_zeros(&did, sizeof did));
    MUST(twice_master_inputs(&master, bytes, got) == TWICE_STOPPED && is_zeros(bytes, got));
    MUST(twice_master_offer(&master, offer, sent) == TWICE_STOPPED && is_zeros(offer, sent));
    MUST(twice_master_state(&master, &state) == TWICE_STOPPED && state == GP_RESET);
    MUST(twice_master_held(&master, &flag) == TWICE_STOPPED && flag == 0);
    MUST(twice_master_due(&master, &due) == TWICE_STOPPED && due == 0);
    MUST(twice_master_age(&master, &age) == TWICE_STOPPED && age == 0);
    MUST(twice_master_terms(&master, &terms) == TWICE_STOPPED && terms.conn == 0 && terms.app_len == 0);
    MUST(tick(MASTER) == TWICE_STOPPED && twice_master_reset(&master, &out, &did) == TWICE_STOPPED && out.len == 0);
    MUST(twice_master_put(&master, data, sent) == TWICE_STOPPED && twice_master_hold(&master, true) == TWICE_STOPPED);
    MUST(twice_master_nonce(&master, 8) == TWICE_STOPPED && twice_master_end(&master) == TWICE_STOPPED);
    MUST(twice_master_accept(&master, data, 7, &did) == TWICE_STOPPED);
    MUST(twice_master_reply(&master, &out) == TWICE_STOPPED && out.len == 0);
    MUST(twice_master_init(&master, &of_master, app, APP_LEN) == TWICE_STOPPED);
}

/* Both channels do the call, and stop at it if one did something else before. */
#define STOPS(end, call, alone)                                                          \
    do {                                                                                 \
        begin(end);                                                                      \
        MUST((call) == GP_OK);                                                           \
        begin(end);                                                                      \
        MUST((alone) == GP_OK);                                                          \
        MUST((call) == TWICE_STOPPED && ((end) != SLAVE || slave.mode == TWICE_HALTED)); \
        MUST(((end) == SLAVE || master.mode == TWICE_HALTED) && nothing_left());         \
        if ((end) == SLAVE) slave_stays();                                               \
        else master_stays();                                                             \
    } while (0)

/* The same after a call of the first channel, and after one of the second. */
#define SLAVE_STOPS(call, name, ...)                                           \
    STOPS(SLAVE, call, gp_slave_##name(&slave_memory.first.end, __VA_ARGS__)); \
    STOPS(SLAVE, call, twin_gp_slave_##name(&slave_memory.second.end, __VA_ARGS__))
#define MASTER_STOPS(call, name, ...)                                             \
    STOPS(MASTER, call, gp_master_##name(&master_memory.first.end, __VA_ARGS__)); \
    STOPS(MASTER, call, twin_gp_master_##name(&master_memory.second.end, __VA_ARGS__))

static void slave_stops(void) {
    static gp_frame other_out;
    static gp_did other_did;
    const uint16_t sent = of_slave.slave_len, got = of_slave.master_len;
    SLAVE_STOPS(deliver(SLAVE), put, other, sent);
    SLAVE_STOPS(twice_slave_offer(&slave, bytes, sent), put, other, sent);
    SLAVE_STOPS(deliver(SLAVE), hold, true);
    SLAVE_STOPS(twice_slave_held(&slave, &state), hold, true);
    SLAVE_STOPS(tick(SLAVE), tick, &other_out, &other_did);
    SLAVE_STOPS(twice_slave_age(&slave, &age), tick, &other_out, &other_did);
    SLAVE_STOPS(deliver_short(SLAVE), reset, &other_out, &other_did);
    SLAVE_STOPS(twice_slave_state(&slave, &state), reset, &other_out, &other_did);
    SLAVE_STOPS(twice_slave_terms(&slave, &terms), reset, &other_out, &other_did);
    SLAVE_STOPS(twice_slave_outputs(&slave, bytes, got), reset, &other_out, &other_did);
    SLAVE_STOPS(deliver(SLAVE), deliver, to_slave.bytes, to_slave.len, &other_out, &other_did);
    SLAVE_STOPS(next_session(SLAVE), nonce, 4);
    STOPS(SLAVE, twice_slave_put(&slave, data, sent), gp_slave_end(&slave_memory.first.end));
    STOPS(SLAVE, twice_slave_hold(&slave, true), twin_gp_slave_end(&slave_memory.second.end));
    STOPS(SLAVE, twice_slave_nonce(&slave, 6), gp_slave_end(&slave_memory.first.end));
    STOPS(SLAVE, twice_slave_reset(&slave, &out, &did), twin_gp_slave_end(&slave_memory.second.end));
    STOPS(SLAVE, twice_slave_end(&slave), gp_slave_end(&slave_memory.first.end));
    STOPS(SLAVE, twice_slave_hold(&slave, false),
          gp_slave_end(&slave_memory.first.end) + twin_gp_slave_end(&slave_memory.second.end));
    STOPS(SLAVE, tick(SLAVE), (twice_slave_stop(&slave), GP_OK));
}

static void master_stops(void) {
    static gp_frame other_out;
    static gp_did other_did;
    const uint16_t sent = of_slave.master_len, got = of_slave.slave_len;
    MASTER_STOPS(deliver(MASTER), put, other, sent);
    MASTER_STOPS(accept_and_reply(), put, other, sent);
    MASTER_STOPS(twice_master_offer(&master, bytes, sent), put, other, sent);
    MASTER_STOPS(deliver(MASTER), hold, true);
    MASTER_STOPS(twice_master_held(&master, &state), hold, true);
    MASTER_STOPS(tick(MASTER), tick, &other_out, &other_did);
    MASTER_STOPS(twice_master_age(&master, &age), tick, &other_out, &other_did);
    MASTER_STOPS(deliver_short(MASTER), reset, &other_out, &other_did);
    MASTER_STOPS(twice_master_state(&master, &state), reset, &other_out, &other_did);
    MASTER_STOPS(twice_master_terms(&master, &terms), reset, &other_out, &other_did);
    MASTER_STOPS(twice_master_inputs(&master, bytes, got), reset, &other_out, &other_did);
    MASTER_STOPS(deliver(MASTER), deliver, to_master.bytes, to_master.len, &other_out, &other_did);
    MASTER_STOPS(twice_master_due(&master, &state), accept, to_master.bytes, to_master.len, &other_did);
    MASTER_STOPS(tick(MASTER), accept, to_master.bytes, to_master.len, &other_did);
    MASTER_STOPS(next_session(MASTER), nonce, 3);
    STOPS(MASTER, twice_master_put(&master, data, sent), gp_master_end(&master_memory.first.end));
    STOPS(MASTER, twice_master_hold(&master, true), twin_gp_master_end(&master_memory.second.end));
    STOPS(MASTER, twice_master_nonce(&master, 5), gp_master_end(&master_memory.first.end));
    STOPS(MASTER, twice_master_reset(&master, &out, &did), twin_gp_master_end(&master_memory.second.end));
    STOPS(MASTER, twice_master_end(&master), gp_master_end(&master_memory.first.end));
    STOPS(MASTER, twice_master_hold(&master, false),
          gp_master_end(&master_memory.first.end) + twin_gp_master_end(&master_memory.second.end));
    STOPS(MASTER, tick(MASTER), (twice_master_stop(&master), GP_OK));
}

/* States alone differ: outputs and ages are 0 in both. */
static void states_differ(void) {
    load = zeros;
    STOPS(SLAVE, deliver_short(SLAVE), gp_slave_reset(&slave_memory.first.end, &out, &did));
    STOPS(MASTER, deliver_short(MASTER), twin_gp_master_reset(&master_memory.second.end, &out, &did));
    load = data;
}

/* Outputs alone differ: a channel took a frame with other data. */
static void outputs_differ(void) {
    gp_frame order;
    begin(SLAVE);
    MUST(gp_slave_deliver(&slave_memory.first.end, to_slave.bytes, to_slave.len, &out, &did) == GP_OK);
    MUST(twin_gp_slave_deliver(&slave_memory.second.end, to_slave.bytes, to_slave.len, &out, &did) == GP_OK);
    MUST(twice_master_put(&master, other, of_slave.master_len) == GP_OK);
    MUST(twice_master_deliver(&master, out.bytes, out.len, &order, &did) == GP_OK);
    MUST(gp_slave_deliver(&slave_memory.first.end, order.bytes, order.len, &out, &did) == GP_OK);
    MUST(did.took == GP_COMMAND_PROCESS_DATA && deliver_short(SLAVE) == TWICE_STOPPED);
    slave_stays();
}

/* One channel is a new end, which doesn't know that the next id was used. Only `used` tells the channels apart. */
static void used_differs(int end) {
    begin(SLAVE);
    MUST(next_session(end) == GP_OK && did.used == 1);
    begin(SLAVE);
    if (end == SLAVE) {
        MUST(twin_gp_slave_end(&slave_memory.second.end) == GP_OK);
        MUST(twin_gp_slave_init_exact(&slave_memory.second.end, &of_slave, app, APP_LEN) == GP_OK);
        MUST(twin_gp_slave_put(&slave_memory.second.end, data, of_slave.slave_len) == GP_OK);
        MUST(gp_slave_reset(&slave_memory.first.end, &out, &did) == GP_OK);
        MUST(next_session(SLAVE) == TWICE_STOPPED && twice_slave_state(&slave, &state) == TWICE_STOPPED);
    } else {
        MUST(twin_gp_master_end(&master_memory.second.end) == GP_OK);
        MUST(twin_gp_master_init(&master_memory.second.end, &of_master, app, APP_LEN) == GP_OK);
        MUST(twin_gp_master_put(&master_memory.second.end, data, of_slave.master_len) == GP_OK);
        MUST(gp_master_reset(&master_memory.first.end, &out, &did) == GP_OK);
        MUST(next_session(MASTER) == TWICE_STOPPED && twice_master_state(&master, &state) == TWICE_STOPPED);
    }
}

/* The second channel of a slave comes to Data with a master of its own, which has these settings. */
static uint8_t terms_with(const gp_master_settings *settings, uint8_t last) {
    static gp_master_memory own_memory;
    static gp_frame order, answer;
    const uint8_t wanted[APP_LEN] = {1, 2, last};
    gp_master own = GP_MASTER_IN(&own_memory);
    gp_slave *const second = &slave_memory.second.end;
    begin(SLAVE);
    MUST(twin_gp_slave_end(second) == GP_OK && twin_gp_slave_init(second, &of_slave, APP_LEN) == GP_OK);
    MUST(gp_master_init(&own, settings, wanted, APP_LEN) == GP_OK && gp_master_tick(&own, &order, &did) == GP_OK);
    for (int i = 0; i < MOST_EXCHANGES && twin_gp_slave_terms(second, &terms) != GP_OK; i++) {
        MUST(twin_gp_slave_deliver(second, order.bytes, order.len, &answer, &did) == GP_OK);
        MUST(gp_master_deliver(&own, answer.bytes, answer.len, &order, &did) == GP_OK);
    }
    return twice_slave_terms(&slave, &terms);
}

static void terms_differ(void) {
    gp_master_settings settings = of_master;
    MUST(terms_with(&settings, app[2]) == GP_OK && terms.app_len == APP_LEN && memcmp(terms.app, app, APP_LEN) == 0);
    MUST(terms_with(&settings, app[2] + 1) == TWICE_STOPPED && terms.app_len == 0);
    settings.watchdog++;
    MUST(terms_with(&settings, app[2]) == TWICE_STOPPED && terms.watchdog == 0);
}

static void all_stop(uint16_t master_len, uint16_t slave_len, uint16_t profile) {
    of_slave = (gp_slave_settings){.master_len = master_len,
                                   .slave_len = slave_len,
                                   .address = ADDRESS,
                                   .hand = 200,
                                   .most = 1000,
                                   .profile = profile,
                                   .nonce = 2};
    of_master = (gp_master_settings){.master_len = master_len,
                                     .slave_len = slave_len,
                                     .conn = 1,
                                     .address = ADDRESS,
                                     .watchdog = 100,
                                     .profile = profile,
                                     .nonce = 1};
    slave_stops();
    master_stops();
    states_differ();
    outputs_differ();
    used_differs(SLAVE);
    used_differs(MASTER);
    terms_differ();
}

int main(void) {
    const uint16_t lens[] = {1, 2, 30, GP_MOST_DATA};
    for (size_t i = 0; i < 4; i++)
        for (size_t j = 0; j < 4; j++) all_stop(lens[i], lens[j], (uint16_t)(1 + (i + j) % 2));
    printf("two channels stop at each difference: %u answers as they are to be\n", tried);
    return 0;
}
