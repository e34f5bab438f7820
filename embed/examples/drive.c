/*
 * A drive: a slave in its cyclic loop. Each millisecond it delivers the frames that came, counts a tick, drives its motor
 * by the outputs, and sends. If anything is wrong, the motor is off.
 *
 * Replace what is under "The device". Here the bus is a list of frames: a master brings the connection up, switches the
 * motor on, and then is silent until the watchdog expires. Over a bus that loses frames send the last one again, as
 * udp_drive.c does.
 *
 * When data come again, the motor stays off until its bit was 0 and is 1 again, so a stuck bit starts nothing. The
 * acknowledgement by a person is up to the master's application.
 */
#include <gatepast.h>
#include <stdio.h>
#include <stdlib.h>

enum { MASTER_LEN = 2, SLAVE_LEN = 2, ADDRESS = 2, CONNECTION = 1 };
enum { MOST_FRAMES = 4 };   /* delivered in a millisecond, so that ticks never wait for frames */
enum { MOST_RESETS = 100 }; /* after so many a person has to look */

/* The device */

static unsigned now; /* the time in milliseconds */

static const uint8_t coming[][7] = {
    {0x2A, 0x00, 0x00, 0xC4, 0x2D, 0x00, 0x00}, {0x4E, 0x01, 0x00, 0x12, 0x3E, 0x00, 0x00},
    {0x64, 0x01, 0x00, 0x64, 0x2A, 0x01, 0x00}, {0x64, 0x02, 0x00, 0x62, 0x5F, 0x01, 0x00},
    {0x52, 0x02, 0x00, 0xEE, 0x74, 0x01, 0x00}, {0x52, 0x64, 0x00, 0x58, 0xDA, 0x01, 0x00},
    {0x52, 0x00, 0x00, 0x71, 0x99, 0x01, 0x00}, {0x36, 0x00, 0x00, 0x7F, 0xD9, 0x01, 0x00},
    {0x36, 0x01, 0x00, 0xBF, 0x61, 0x01, 0x00},
};

/* Waits for the next millisecond, or not if one was missed: each is ticked. False if the program is to end. */
static bool next_millisecond(void) {
    return ++now <= 150;
}

/* A frame that came, or NULL at once. */
static const uint8_t *bus_receive(size_t *len) {
    static size_t next;
    if (next == now || next == sizeof coming / sizeof *coming) return NULL;
    *len = sizeof *coming;
    return coming[next++];
}

/* Hands a frame to the bus, and doesn't wait. */
static void bus_send(const uint8_t *frame, size_t len) {
    printf("%3u ms: sends", now);
    for (size_t i = 0; i < len; i++) printf(" %02x", frame[i]);
    printf("\n");
}

/* Bit 0 of the first byte: the motor is enabled. All zeros is off. */
static void drive_motor(const uint8_t outputs[MASTER_LEN]) {
    static int was = -1;
    const int on = outputs[0] & 1;
    if (on != was) printf("%3u ms: motor %s\n", now, on ? "on" : "off");
    was = on;
}

/* A cell of memory that outlasts power-off, with the session id that was used last. Here each run begins at 0, since the
   frames above belong to id 2; no device may. */
static uint16_t cell;

static uint16_t read_lasting(void) {
    return cell;
}

/* False if the value isn't stored. */
static bool write_lasting(uint16_t value) {
    cell = value;
    return true;
}

/* The loop */

static gp_slave_memory memory;
static gp_slave slave = GP_SLAVE_IN(&memory);
static gp_frame out;
static gp_did did;

static const uint8_t off[MASTER_LEN] = {0};

/* Switches the motor off and ends: the one way out besides the end of main. */
static void stop(const char *why) {
    drive_motor(off);
    fprintf(stderr, "drive: %s\n", why);
    exit(1);
}

/* A session id that no session of this drive had, stored before it is used. A slave counts by 2. */
static uint16_t fresh_id(void) {
    const uint16_t last = read_lasting();
    if (last >= 0xFFFE) stop("all session ids are used up");
    if (!write_lasting((uint16_t)(last + 2))) stop("the session id can't be kept");
    return (uint16_t)(last + 2);
}

/* Looks at the terms when a session comes to data, before its first outputs. Ends one that isn't for this drive. */
static void look_at_terms(void) {
    static bool looked;
    static gp_terms terms;
    uint8_t state = GP_RESET;
    if (gp_slave_state(&slave, &state) != GP_OK) stop("no slave");
    const bool first = state == GP_DATA && !looked;
    looked = state == GP_DATA;
    if (!first) return;
    if (gp_slave_terms(&slave, &terms) != GP_OK) stop("no terms");
    if (terms.conn != CONNECTION && gp_slave_reset(&slave, &out, &did) != GP_OK) stop("no reset");
}

/* Keeps the motor's bit at 0 until it came as 0 since data came. */
static void interlock(uint8_t outputs[MASTER_LEN]) {
    static bool released;
    uint8_t state = GP_RESET;
    if (gp_slave_state(&slave, &state) != GP_OK) stop("no slave");
    released = state == GP_DATA && (released || (outputs[0] & 1) == 0);
    if (!released) outputs[0] &= 0xFE;
}

/* After each step: first the outputs, then the frame, and last what may take long. */
static void follow(void) {
    static unsigned resets;
    uint8_t outputs[MASTER_LEN] = {0};
    if (did.used) stop("a session id comes again");
    look_at_terms();
    if (gp_slave_outputs(&slave, outputs, sizeof outputs) != GP_OK) stop("no outputs");
    interlock(outputs);
    drive_motor(outputs);
    if (out.len != 0) bus_send(out.bytes, out.len);
    if (did.reset == GP_NO_RESET) return;
    printf("%3u ms: the session ended with code %02x\n", now, did.code);
    if (++resets > MOST_RESETS) stop("too many resets");
    if (gp_slave_nonce(&slave, fresh_id()) != GP_OK) stop("no session id");
}

static void start(void) {
    const gp_slave_settings settings = {.master_len = MASTER_LEN,
                                        .slave_len = SLAVE_LEN,
                                        .address = ADDRESS,
                                        .hand = 200,
                                        .most = 100, /* old data may stay on for nearly twice as long */
                                        .profile = 1,
                                        .nonce = fresh_id()};
    if (gp_version() != GP_VERSION) stop("header and archive are of two versions");
    if (gp_slave_init(&slave, &settings, 0) != GP_OK) stop("the settings are refused");
}

int main(void) {
    drive_motor(off);
    start();
    while (next_millisecond()) {
        const uint8_t inputs[SLAVE_LEN] = {0x80, 0x00}; /* what the drive offers its master: ready */
        const uint8_t *frame = NULL;
        size_t len = 0;
        if (gp_slave_put(&slave, inputs, sizeof inputs) != GP_OK) stop("the inputs are refused");
        for (int i = 0; i < MOST_FRAMES && (frame = bus_receive(&len)) != NULL; i++) {
            if (gp_slave_deliver(&slave, frame, len, &out, &did) != GP_OK) stop("no slave");
            follow();
        }
        if (gp_slave_tick(&slave, &out, &did) != GP_OK) stop("no slave");
        follow();
    }
    drive_motor(off);
    return 0;
}
