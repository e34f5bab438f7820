/*
 * A controller: a master that runs one connection. Each millisecond it accepts the frames that came, reads the slave's
 * data, decides, and sends. By accept and reply, the next frame carries what was decided from the frame that came.
 * However it ends, it sends a Reset frame, so that the drive doesn't run on until its watchdog expires.
 *
 * Replace what is under "The device". Here the bus is a list of a slave's answers, each of which comes a millisecond
 * after the frame that it answers; after the last one the slave is silent. Over a bus that loses frames send the last one
 * again, as udp_controller.c does.
 */
#include <gatepast.h>
#include <stdio.h>
#include <stdlib.h>

enum { MASTER_LEN = 2, SLAVE_LEN = 2, ADDRESS = 2, CONNECTION = 1 };
enum { MOST_FRAMES = 4 };   /* delivered in a millisecond, so that ticks never wait for frames */
enum { MOST_RESETS = 100 }; /* after so many a person has to look */

/* The device */

static unsigned now; /* the time in milliseconds */
static unsigned due; /* when the answer to the last frame comes; 0 if none does */

static const uint8_t coming[][7] = {
    {0x2A, 0x00, 0x00, 0xC4, 0x2D, 0x00, 0x00}, {0x4E, 0x02, 0x00, 0x90, 0x47, 0x00, 0x00},
    {0x64, 0x01, 0x00, 0x93, 0xD6, 0x01, 0x00}, {0x64, 0x02, 0x00, 0x47, 0x08, 0x01, 0x00},
    {0x52, 0x02, 0x00, 0x30, 0x58, 0x01, 0x00}, {0x52, 0x64, 0x00, 0xAE, 0x68, 0x01, 0x00},
    {0x52, 0x00, 0x00, 0x77, 0x2D, 0x01, 0x00}, {0x36, 0x80, 0x00, 0x4A, 0x3F, 0x01, 0x00},
    {0x36, 0x80, 0x00, 0x39, 0x4F, 0x01, 0x00}, {0x36, 0x80, 0x00, 0x91, 0xA3, 0x01, 0x00},
    {0x36, 0x00, 0x00, 0x78, 0xE1, 0x01, 0x00},
};

/* Waits for the next millisecond, or not if one was missed: each is ticked. False if the program is to end. */
static bool next_millisecond(void) {
    return ++now <= 150;
}

/* A frame that came, or NULL at once. */
static const uint8_t *bus_receive(size_t *len) {
    static size_t next;
    if (due == 0 || due > now || next == sizeof coming / sizeof *coming) return NULL;
    due = 0;
    *len = sizeof *coming;
    return coming[next++];
}

/* Hands a frame to the bus, and doesn't wait. */
static void bus_send(const uint8_t *frame, size_t len) {
    due = now + 1;
    printf("%3u ms: sends", now);
    for (size_t i = 0; i < len; i++) printf(" %02x", frame[i]);
    printf("\n");
}

/* A cell of memory that outlasts power-off, with the session id that was used last. Here each run begins at 0, since the
   frames above belong to id 1; no device may. */
static uint16_t cell;

static uint16_t read_lasting(void) {
    return cell;
}

/* False if the value isn't stored. */
static bool write_lasting(uint16_t value) {
    cell = value;
    return true;
}

/* The loop */

static gp_master_memory memory;
static gp_master master = GP_MASTER_IN(&memory);
static gp_frame out;
static gp_did did;

/* Ends the session at both ends. A frame that is due isn't sent: its order may no longer be right. */
static void leave(void) {
    uint8_t answer = gp_master_reset(&master, &out, &did);
    if (answer == GP_FRAME_DUE && gp_master_reply(&master, &out) == GP_OK) answer = gp_master_reset(&master, &out, &did);
    if (answer == GP_OK) bus_send(out.bytes, out.len);
}

static void stop(const char *why) {
    leave();
    fprintf(stderr, "controller: %s\n", why);
    exit(1);
}

/* A session id that no session of this master had, stored before it is used. */
static uint16_t fresh_id(void) {
    const uint16_t last = read_lasting();
    if (last == 0xFFFF) stop("all session ids are used up");
    if (!write_lasting((uint16_t)(last + 1))) stop("the session id can't be kept");
    return (uint16_t)(last + 1);
}

/* Enables the motor if the drive says in bit 7 that it is ready. The inputs are zeros in every state but GP_DATA, so after a
   reset the first order is off. */
static void decide(void) {
    uint8_t inputs[SLAVE_LEN] = {0}, order[MASTER_LEN] = {0};
    if (gp_master_inputs(&master, inputs, sizeof inputs) != GP_OK) stop("no inputs");
    if (inputs[0] & 0x80) order[0] = 1;
    if (gp_master_put(&master, order, sizeof order) != GP_OK) stop("the order is refused");
}

/* After each step, when its frame is sent: what may take long. */
static void follow(void) {
    static unsigned resets;
    if (did.took == GP_COMMAND_PROCESS_DATA) printf("%3u ms: the drive says %02x\n", now, did.load[0]);
    if (did.reset == GP_NO_RESET) return;
    printf("%3u ms: the session ended with code %02x\n", now, did.code);
    if (++resets > MOST_RESETS) stop("too many resets");
    if (gp_master_nonce(&master, fresh_id()) != GP_OK) stop("no session id");
}

/* Accepts a frame, decides, and sends the frame that is due. */
static void came(const uint8_t *frame, size_t len) {
    uint8_t is_due = 0;
    if (gp_master_accept(&master, frame, len, &did) != GP_OK) stop("no master");
    if (did.used) stop("a session id comes again");
    if (gp_master_due(&master, &is_due) != GP_OK) stop("no master");
    decide();
    if (is_due) {
        if (gp_master_reply(&master, &out) != GP_OK) stop("no answer");
        bus_send(out.bytes, out.len);
    }
    follow();
}

/* Counts a tick. If the watchdog expires, the inputs are zeros at once. */
static void passed(void) {
    if (gp_master_tick(&master, &out, &did) != GP_OK) stop("no master");
    decide();
    if (out.len != 0) bus_send(out.bytes, out.len);
    follow();
}

static void start(void) {
    const gp_master_settings settings = {.master_len = MASTER_LEN,
                                         .slave_len = SLAVE_LEN,
                                         .conn = CONNECTION,
                                         .address = ADDRESS,
                                         .watchdog = 100,
                                         .profile = 1,
                                         .nonce = fresh_id()};
    static const uint8_t app[1]; /* no application parameters: none of these bytes */
    if (gp_version() != GP_VERSION) stop("header and archive are of two versions");
    if (gp_master_init(&master, &settings, app, 0) != GP_OK) stop("the settings are refused");
}

int main(void) {
    start();
    while (next_millisecond()) {
        const uint8_t *frame = NULL;
        size_t len = 0;
        for (int i = 0; i < MOST_FRAMES && (frame = bus_receive(&len)) != NULL; i++) came(frame, len);
        passed();
    }
    leave();
    return 0;
}
