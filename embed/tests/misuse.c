/*
 * What a program does wrong is refused by name, and changes nothing; and each answer of enum gp_answer comes once here.
 * Each call is also tried at a handle without an end.
 */
#include <gatepast.h>
#include <stdio.h>
#include <stdlib.h>
#include <string.h>

static unsigned tried;

static void answers(int line, uint8_t answer, uint8_t wanted) {
    tried++;
    if (answer == wanted) return;
    fprintf(stderr, "misuse: line %d answered %d, not %d\n", line, answer, wanted);
    exit(1);
}

static void must(int line, bool holds) {
    tried++;
    if (holds) return;
    fprintf(stderr, "misuse: line %d doesn't hold\n", line);
    exit(1);
}

#define ANSWERS(wanted, call) answers(__LINE__, (call), (wanted))
#define MUST(what) must(__LINE__, (what))

static gp_slave_memory slave_memory, slave_before;
static gp_master_memory master_memory, master_before;
static gp_slave slave = GP_SLAVE_IN(&slave_memory);
static gp_master master = GP_MASTER_IN(&master_memory);
static gp_frame out, frame;
static gp_did did;
static gp_terms terms;
static uint8_t data[GP_MOST_APP + 1];
static uint8_t flag;
static uint16_t age;

/* No end is there: each call says so, and writes nothing. */
static void no_slave(void) {
    out.len = 7, did.took = 7, terms.conn = 7, flag = 7, age = 7, data[0] = 7;
    ANSWERS(GP_NO_END, gp_slave_end(&slave));
    ANSWERS(GP_NO_END, gp_slave_deliver(&slave, data, 7, &out, &did));
    ANSWERS(GP_NO_END, gp_slave_tick(&slave, &out, &did));
    ANSWERS(GP_NO_END, gp_slave_reset(&slave, &out, &did));
    ANSWERS(GP_NO_END, gp_slave_put(&slave, data, 2));
    ANSWERS(GP_NO_END, gp_slave_hold(&slave, true));
    ANSWERS(GP_NO_END, gp_slave_nonce(&slave, 1));
    ANSWERS(GP_NO_END, gp_slave_state(&slave, &flag));
    ANSWERS(GP_NO_END, gp_slave_outputs(&slave, data, 2));
    ANSWERS(GP_NO_END, gp_slave_offer(&slave, data, 2));
    ANSWERS(GP_NO_END, gp_slave_terms(&slave, &terms));
    ANSWERS(GP_NO_END, gp_slave_age(&slave, &age));
    ANSWERS(GP_NO_END, gp_slave_held(&slave, &flag));
    MUST(out.len == 7 && did.took == 7 && terms.conn == 7 && flag == 7 && age == 7 && data[0] == 7);
}

static void no_master(void) {
    out.len = 7, did.took = 7, terms.conn = 7, flag = 7, age = 7, data[0] = 7;
    ANSWERS(GP_NO_END, gp_master_end(&master));
    ANSWERS(GP_NO_END, gp_master_deliver(&master, data, 7, &out, &did));
    ANSWERS(GP_NO_END, gp_master_accept(&master, data, 7, &did));
    ANSWERS(GP_NO_END, gp_master_due(&master, &flag));
    ANSWERS(GP_NO_END, gp_master_reply(&master, &out));
    ANSWERS(GP_NO_END, gp_master_tick(&master, &out, &did));
    ANSWERS(GP_NO_END, gp_master_reset(&master, &out, &did));
    ANSWERS(GP_NO_END, gp_master_put(&master, data, 2));
    ANSWERS(GP_NO_END, gp_master_hold(&master, true));
    ANSWERS(GP_NO_END, gp_master_nonce(&master, 1));
    ANSWERS(GP_NO_END, gp_master_state(&master, &flag));
    ANSWERS(GP_NO_END, gp_master_outputs(&master, data, 2));
    ANSWERS(GP_NO_END, gp_master_inputs(&master, data, 2));
    ANSWERS(GP_NO_END, gp_master_offer(&master, data, 2));
    ANSWERS(GP_NO_END, gp_master_terms(&master, &terms));
    ANSWERS(GP_NO_END, gp_master_age(&master, &age));
    ANSWERS(GP_NO_END, gp_master_held(&master, &flag));
    MUST(out.len == 7 && did.took == 7 && terms.conn == 7 && flag == 7 && age == 7 && data[0] == 7);
}

static const gp_slave_settings good_slave = {
    .master_len = 2, .slave_len = 4, .address = 2, .hand = 200, .most = 1000, .profile = 1, .nonce = 2};
static const gp_master_settings good_master = {
    .master_len = 2, .slave_len = 4, .conn = 1, .address = 2, .watchdog = 100, .profile = 1, .nonce = 1};

/* The same at handles of zeros, as static storage gives them; and no end is made there, whatever else is wrong. */
static void no_memory(void) {
    slave = (gp_slave)GP_SLAVE_IN(NULL);
    master = (gp_master)GP_MASTER_IN(NULL);
    no_slave();
    no_master();
    ANSWERS(GP_NO_ROOM, gp_slave_init(&slave, &good_slave, 0));
    ANSWERS(GP_NO_ROOM, gp_slave_init_exact(&slave, &good_slave, data, GP_MOST_APP + 1));
    ANSWERS(GP_NO_ROOM, gp_slave_init_ranges(&slave, &good_slave, data, 1, data, 2));
    ANSWERS(GP_NO_ROOM, gp_master_init(&master, &good_master, data, GP_MOST_APP + 1));
    no_slave();
    no_master();
    slave = (gp_slave)GP_SLAVE_IN(&slave_memory);
    master = (gp_master)GP_MASTER_IN(&master_memory);
}

/* One setting is bad: the answer names it, and no slave is made. */
#define BAD_SLAVE(wanted, field, value)                       \
    do {                                                      \
        gp_slave_settings set = good_slave;                   \
        set.field = (value);                                  \
        ANSWERS((wanted), gp_slave_init(&slave, &set, 0));    \
        ANSWERS(GP_NO_END, gp_slave_state(&slave, &flag));    \
    } while (0)

#define BAD_MASTER(wanted, field, value)                              \
    do {                                                              \
        gp_master_settings set = good_master;                         \
        set.field = (value);                                          \
        ANSWERS((wanted), gp_master_init(&master, &set, NULL, 0));    \
        ANSWERS(GP_NO_END, gp_master_state(&master, &flag));          \
    } while (0)

static void bad_settings(void) {
    const uint8_t low[2] = {1, 2}, high[2] = {1, 1};
    BAD_SLAVE(GP_BAD_LENGTH, master_len, 0);
    BAD_SLAVE(GP_BAD_LENGTH, master_len, 3);
    BAD_SLAVE(GP_BAD_LENGTH, slave_len, 128);
    BAD_SLAVE(GP_BAD_LENGTH, slave_len, 65535);
    BAD_SLAVE(GP_BAD_PROFILE, profile, 0);
    BAD_SLAVE(GP_BAD_PROFILE, profile, 3);
    BAD_SLAVE(GP_BAD_NONCE, nonce, 65536);
    BAD_SLAVE(GP_BAD_HAND, hand, 0);
    BAD_SLAVE(GP_BAD_MOST, most, 0);
    BAD_MASTER(GP_BAD_LENGTH, slave_len, 5);
    BAD_MASTER(GP_BAD_PROFILE, profile, 65535);
    BAD_MASTER(GP_BAD_NONCE, nonce, UINT32_MAX);
    BAD_MASTER(GP_BAD_CONN, conn, 0);
    BAD_MASTER(GP_BAD_WATCHDOG, watchdog, 0);
    ANSWERS(GP_BAD_APP, gp_slave_init(&slave, &good_slave, GP_MOST_APP + 1));
    ANSWERS(GP_BAD_APP, gp_slave_init_exact(&slave, &good_slave, data, GP_MOST_APP + 1));
    ANSWERS(GP_BAD_APP, gp_slave_init_ranges(&slave, &good_slave, low, 2, low, 1));
    ANSWERS(GP_BAD_APP, gp_slave_init_ranges(&slave, &good_slave, low, 2, high, 2));
    ANSWERS(GP_BAD_APP, gp_slave_init_ranges(&slave, &good_slave, data, GP_MOST_APP + 1, high, 2));
    ANSWERS(GP_BAD_APP, gp_slave_init_ranges(&slave, &good_slave, low, 2, data, GP_MOST_APP + 1));
    ANSWERS(GP_BAD_APP, gp_master_init(&master, &good_master, data, GP_MOST_APP + 1));
    ANSWERS(GP_NO_END, gp_slave_state(&slave, &flag));
    ANSWERS(GP_NO_END, gp_master_state(&master, &flag));
}

/* Two settings are bad: the answer is the one that the header names first. */
static void two_bad_settings(void) {
    const uint8_t low[2] = {1, 2}, high[2] = {1, 1};
    gp_slave_settings set = good_slave;
    gp_master_settings of_master = good_master;
    set.most = 0;
    ANSWERS(GP_BAD_MOST, gp_slave_init(&slave, &set, GP_MOST_APP + 1));
    ANSWERS(GP_BAD_APP, gp_slave_init_exact(&slave, &set, data, GP_MOST_APP + 1));
    ANSWERS(GP_BAD_MOST, gp_slave_init_ranges(&slave, &set, low, 2, high, 2));
    ANSWERS(GP_BAD_MOST, gp_slave_init_ranges(&slave, &set, low, 2, low, 1));
    ANSWERS(GP_BAD_APP, gp_slave_init_ranges(&slave, &set, low, 2, data, GP_MOST_APP + 1));
    set.hand = 0;
    ANSWERS(GP_BAD_HAND, gp_slave_init(&slave, &set, 0));
    set.nonce = 65536;
    ANSWERS(GP_BAD_NONCE, gp_slave_init(&slave, &set, 0));
    set.profile = 3;
    ANSWERS(GP_BAD_PROFILE, gp_slave_init(&slave, &set, 0));
    set.slave_len = 3;
    ANSWERS(GP_BAD_LENGTH, gp_slave_init(&slave, &set, 0));
    of_master.watchdog = of_master.conn = 0;
    ANSWERS(GP_BAD_CONN, gp_master_init(&master, &of_master, data, 0));
    ANSWERS(GP_BAD_APP, gp_master_init(&master, &of_master, data, GP_MOST_APP + 1));
    of_master.nonce = 65536;
    ANSWERS(GP_BAD_NONCE, gp_master_init(&master, &of_master, data, 0));
    ANSWERS(GP_NO_END, gp_slave_state(&slave, &flag));
    ANSWERS(GP_NO_END, gp_master_state(&master, &flag));
}

/* A slave refuses what doesn't fit it, and is as it was. */
static void bad_calls_of_a_slave(void) {
    ANSWERS(GP_OK, gp_slave_init(&slave, &good_slave, 0));
    slave_before = slave_memory;
    memset(data, 7, sizeof data);
    ANSWERS(GP_BUSY, gp_slave_init(&slave, &good_slave, 0));
    ANSWERS(GP_BUSY, gp_slave_init_exact(&slave, &good_slave, data, GP_MOST_APP + 1));
    ANSWERS(GP_BUSY, gp_slave_init_ranges(&slave, &good_slave, data, 1, data, 2));
    ANSWERS(GP_BAD_LENGTH, gp_slave_put(&slave, data, 2));
    ANSWERS(GP_BAD_LENGTH, gp_slave_put(&slave, NULL, 0));
    ANSWERS(GP_BAD_LENGTH, gp_slave_put(&slave, data, sizeof data));
    ANSWERS(GP_BAD_LENGTH, gp_slave_outputs(&slave, data, 4));
    ANSWERS(GP_BAD_LENGTH, gp_slave_outputs(&slave, NULL, 0));
    ANSWERS(GP_BAD_LENGTH, gp_slave_offer(&slave, data, 2));
    ANSWERS(GP_BAD_NONCE, gp_slave_nonce(&slave, 65536));
    ANSWERS(GP_NOT_IN_DATA, gp_slave_terms(&slave, &terms));
    MUST(memcmp(&slave_before, &slave_memory, sizeof slave_memory) == 0);
    MUST(data[0] == 7 && data[3] == 7 && terms.conn == 7);
    ANSWERS(GP_OK, gp_slave_deliver(&slave, NULL, 0, &out, &did));
    MUST(did.dropped == GP_DROPPED_LENGTH && out.len == 0 && did.sent == 0);
    ANSWERS(GP_OK, gp_slave_end(&slave));
    no_slave();
}

/* Bytes behind the numbers are never written. */
static void nothing_past_the_numbers(void) {
    ANSWERS(GP_OK, gp_slave_init(&slave, &good_slave, 0));
    memset(&out, 0xA5, sizeof out);
    memset(&did, 0xA5, sizeof did);
    memset(data, 0xA5, sizeof data);
    const uint8_t reset_frame[7] = {0x2A, 0x00, 0x00, 0xC4, 0x2D, 0x00, 0x00};
    ANSWERS(GP_OK, gp_slave_deliver(&slave, reset_frame, 7, &out, &did));
    MUST(did.took == GP_COMMAND_RESET && did.sent == 1 && did.load_len == 2 && out.len == 11);
    for (size_t i = out.len; i < sizeof out.bytes; i++) MUST(out.bytes[i] == 0xA5);
    for (size_t i = did.load_len; i < sizeof did.load; i++) MUST(did.load[i] == 0xA5);
    ANSWERS(GP_OK, gp_slave_outputs(&slave, data, 2));
    MUST(data[0] == 0 && data[1] == 0 && data[2] == 0xA5);
    ANSWERS(GP_OK, gp_slave_end(&slave));
}

/* While a frame is due a master takes no other step, and a frame that isn't due is not written. */
static void frames_that_are_due(void) {
    const uint8_t reset_frame[11] = {0x2A, 0x00, 0x00, 0xC4, 0x2D, 0x00, 0x00, 0x00, 0x00, 0x00, 0x00};
    ANSWERS(GP_OK, gp_master_init(&master, &good_master, NULL, 0));
    ANSWERS(GP_BUSY, gp_master_init(&master, &good_master, NULL, 0));
    ANSWERS(GP_NONE_DUE, gp_master_reply(&master, &out));
    ANSWERS(GP_OK, gp_master_age(&master, &age));
    MUST(age == good_master.watchdog - 1);
    ANSWERS(GP_OK, gp_master_tick(&master, &out, &did));
    MUST(did.sent == 1 && did.reset == GP_NO_RESET && out.len == 7 && out.bytes[0] == GP_COMMAND_RESET);
    ANSWERS(GP_OK, gp_master_accept(&master, reset_frame, 7, &did));
    MUST(did.dropped == GP_DROPPED_LENGTH && did.took == 0 && did.reset == GP_NO_RESET);
    ANSWERS(GP_OK, gp_master_due(&master, &flag));
    MUST(flag == 0);
    /* the slave's own Reset frame, of its length */
    ANSWERS(GP_OK, gp_slave_init(&slave, &good_slave, 0));
    frame = out;
    ANSWERS(GP_OK, gp_slave_deliver(&slave, frame.bytes, frame.len, &out, &did));
    ANSWERS(GP_OK, gp_master_accept(&master, out.bytes, out.len, &did));
    MUST(did.took == GP_COMMAND_RESET && did.reset == GP_NO_RESET && did.sent == 0);
    ANSWERS(GP_OK, gp_master_due(&master, &flag));
    MUST(flag == 1);
    memset(data, 7, sizeof data);
    out.len = 7, did.took = 7;
    master_before = master_memory;
    ANSWERS(GP_FRAME_DUE, gp_master_deliver(&master, data, 7, &out, &did));
    ANSWERS(GP_FRAME_DUE, gp_master_accept(&master, data, 7, &did));
    ANSWERS(GP_FRAME_DUE, gp_master_tick(&master, &out, &did));
    ANSWERS(GP_FRAME_DUE, gp_master_reset(&master, &out, &did));
    ANSWERS(GP_BAD_LENGTH, gp_master_put(&master, data, 4));
    ANSWERS(GP_BAD_LENGTH, gp_master_outputs(&master, data, 2));
    ANSWERS(GP_BAD_LENGTH, gp_master_offer(&master, data, 4));
    ANSWERS(GP_BAD_NONCE, gp_master_nonce(&master, 65536));
    ANSWERS(GP_NOT_IN_DATA, gp_master_terms(&master, &terms));
    MUST(memcmp(&master_before, &master_memory, sizeof master_memory) == 0);
    MUST(out.len == 7 && did.took == 7 && data[0] == 7);
    ANSWERS(GP_OK, gp_master_put(&master, data, 2));
    ANSWERS(GP_OK, gp_master_hold(&master, true));
    ANSWERS(GP_OK, gp_master_nonce(&master, 5));
    ANSWERS(GP_OK, gp_master_held(&master, &flag));
    MUST(flag == 1);
    ANSWERS(GP_OK, gp_master_reply(&master, &out));
    MUST(out.len == 7 && out.bytes[0] == GP_COMMAND_SESSION && out.bytes[1] == 5);
    ANSWERS(GP_NONE_DUE, gp_master_reply(&master, &out));
    ANSWERS(GP_OK, gp_master_age(&master, &age));
    MUST(age == 0);
    ANSWERS(GP_OK, gp_master_end(&master));
    ANSWERS(GP_OK, gp_slave_end(&slave));
    no_master();
}

/* Ends that are set so exchange frames until the slave tells its terms. */
static void handshake(const gp_slave_settings *of_slave, const gp_master_settings *of_master, size_t app_len) {
    unsigned exchanges = 0;
    ANSWERS(GP_OK, gp_slave_init_exact(&slave, of_slave, data, app_len));
    ANSWERS(GP_OK, gp_master_init(&master, of_master, data, app_len));
    ANSWERS(GP_OK, gp_master_tick(&master, &frame, &did));
    while (gp_slave_terms(&slave, &terms) == GP_NOT_IN_DATA && exchanges++ < 100) {
        ANSWERS(GP_OK, gp_slave_deliver(&slave, frame.bytes, frame.len, &out, &did));
        ANSWERS(GP_OK, gp_master_deliver(&master, out.bytes, out.len, &frame, &did));
    }
    MUST(terms.app_len == app_len && memcmp(terms.app, data, app_len) == 0);
}

/* The longest frames and application parameters fill their arrays. */
static void greatest_numbers(void) {
    gp_slave_settings of_slave = good_slave;
    gp_master_settings of_master = good_master;
    of_slave.master_len = of_slave.slave_len = of_master.master_len = of_master.slave_len = GP_MOST_DATA;
    handshake(&of_slave, &of_master, GP_MOST_APP);
    ANSWERS(GP_OK, gp_slave_deliver(&slave, frame.bytes, frame.len, &out, &did));
    MUST(did.took == GP_COMMAND_PROCESS_DATA && did.load_len == GP_MOST_DATA && out.len == GP_MOST_FRAME);
    ANSWERS(GP_OK, gp_slave_end(&slave));
    ANSWERS(GP_OK, gp_master_end(&master));
}

/* A handshake with application parameters, and what both ends tell of it. */
static void terms_of_a_session(void) {
    const uint8_t load[4] = {1, 2, 3, 4};
    uint8_t offer[4] = {0};
    handshake(&good_slave, &good_master, 3);
    MUST(terms.conn == 1 && terms.address == 2 && terms.watchdog == 100 && terms.profile == 1 && terms.word == 0);
    ANSWERS(GP_OK, gp_slave_state(&slave, &flag));
    MUST(flag == GP_DATA);
    ANSWERS(GP_OK, gp_slave_age(&slave, &age));
    MUST(age == 0);
    ANSWERS(GP_OK, gp_slave_tick(&slave, &out, &did));
    ANSWERS(GP_OK, gp_slave_age(&slave, &age));
    MUST(age == 1 && out.len == 0);
    ANSWERS(GP_OK, gp_slave_hold(&slave, true));
    ANSWERS(GP_OK, gp_slave_put(&slave, load, sizeof load));
    ANSWERS(GP_OK, gp_slave_reset(&slave, &out, &did));
    MUST(did.reset == GP_BY_CALL && did.code == GP_CODE_LOCAL_RESET && did.sent == 1 && out.len == 11);
    ANSWERS(GP_NOT_IN_DATA, gp_slave_terms(&slave, &terms));
    /* puts and holds outlast resets */
    ANSWERS(GP_OK, gp_slave_held(&slave, &flag));
    ANSWERS(GP_OK, gp_slave_offer(&slave, offer, sizeof offer));
    MUST(flag == 1 && memcmp(offer, load, sizeof load) == 0);
    ANSWERS(GP_OK, gp_slave_tick(&slave, &out, &did));
    ANSWERS(GP_OK, gp_slave_age(&slave, &age));
    MUST(age == 0 && out.len == 0);
    ANSWERS(GP_OK, gp_slave_end(&slave));
    ANSWERS(GP_OK, gp_master_end(&master));
}

/* Both ends reset, and a session begins: whether master and slave tell that it has the id of the one before. */
static void session_begins(uint8_t at_master, uint8_t at_slave) {
    ANSWERS(GP_OK, gp_master_reset(&master, &frame, &did));
    MUST(did.used == 0);
    ANSWERS(GP_OK, gp_slave_deliver(&slave, frame.bytes, frame.len, &out, &did));
    MUST(did.used == 0 && out.bytes[0] == GP_COMMAND_RESET);
    ANSWERS(GP_OK, gp_master_deliver(&master, out.bytes, out.len, &frame, &did));
    MUST(did.used == at_master && frame.bytes[0] == GP_COMMAND_SESSION);
    ANSWERS(GP_OK, gp_slave_deliver(&slave, frame.bytes, frame.len, &out, &did));
    MUST(did.used == at_slave && out.bytes[0] == GP_COMMAND_SESSION);
    ANSWERS(GP_OK, gp_slave_tick(&slave, &frame, &did));
    MUST(did.used == 0);
}

/* An end tells that a session begins with the id of the one before, and knows no more of its ids. */
static void used_ids(void) {
    ANSWERS(GP_OK, gp_slave_init(&slave, &good_slave, 0));
    ANSWERS(GP_OK, gp_master_init(&master, &good_master, NULL, 0));
    session_begins(0, 0);
    session_begins(1, 1);
    ANSWERS(GP_OK, gp_slave_nonce(&slave, 4));
    session_begins(1, 0);
    ANSWERS(GP_OK, gp_master_nonce(&master, 3));
    session_begins(0, 1);
    ANSWERS(GP_OK, gp_master_nonce(&master, 5));
    ANSWERS(GP_OK, gp_master_nonce(&master, 3));
    ANSWERS(GP_OK, gp_slave_nonce(&slave, 2));
    session_begins(1, 0);
    /* after accept the id is told as it is then, and reply sends the one that was set last */
    ANSWERS(GP_OK, gp_master_reset(&master, &frame, &did));
    ANSWERS(GP_OK, gp_slave_deliver(&slave, frame.bytes, frame.len, &out, &did));
    ANSWERS(GP_OK, gp_master_accept(&master, out.bytes, out.len, &did));
    MUST(did.used == 1);
    ANSWERS(GP_OK, gp_master_nonce(&master, 7));
    ANSWERS(GP_OK, gp_master_reply(&master, &frame));
    MUST(frame.bytes[0] == GP_COMMAND_SESSION && frame.bytes[1] == 7);
    session_begins(1, 1);
    /* a new end knows no session before */
    ANSWERS(GP_OK, gp_master_end(&master));
    ANSWERS(GP_OK, gp_master_init(&master, &good_master, NULL, 0));
    session_begins(0, 1);
    ANSWERS(GP_OK, gp_slave_end(&slave));
    ANSWERS(GP_OK, gp_master_end(&master));
}

int main(void) {
    MUST(gp_build(data, GP_BUILD_LENGTH) == GP_OK && data[GP_BUILD_LENGTH - 1] == '\n'); /* before there is an end */
    MUST(gp_version() == GP_VERSION && gp_slave_size() == GP_SLAVE_SIZE && gp_master_size() == GP_MASTER_SIZE);
    MUST(gp_slave_align() == _Alignof(gp_slave_memory) && gp_master_align() == _Alignof(gp_master_memory));
    no_slave();
    no_master();
    no_memory();
    bad_settings();
    two_bad_settings();
    bad_calls_of_a_slave();
    nothing_past_the_numbers();
    frames_that_are_due();
    for (size_t i = 0; i < sizeof data; i++) data[i] = (uint8_t)i;
    greatest_numbers();
    terms_of_a_session();
    used_ids();
    printf("%u answers as they are to be\n", tried);
    return 0;
}
