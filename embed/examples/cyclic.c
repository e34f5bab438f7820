/*
 * Both ends over a cyclic image, as a fieldbus has it: 12 bytes each way, in memory that two processes share. The
 * drive looks at it each millisecond, the controller every 5. Each time an end delivers the bytes of the other's slot,
 * changed or not. It writes a frame when a step gave one, and else leaves what is there. So no frame is lost: it stays
 * until the next. An end drops the frame that it took last, if it sees it again.
 *
 * A slot has to be read whole, since half a frame resets an end. EtherCAT sees to it: a sync manager hands over three
 * buffers in turn. Here each slot has a sequence lock: a number that is odd while the slot is written. Who saw an odd
 * number, or another one after reading, leaves the slot for this time. The writer waits in the middle, so that this
 * happens.
 *
 * Halfway the drive resets itself. Its Reset frame has the same bytes as its answer to the controller's. Who delivers
 * only what changed never sees that answer, and both wait for ever. What else a device does is in drive.c and
 * controller.c.
 */
#define _GNU_SOURCE
#include <errno.h>
#include <gatepast.h>
#include <stdatomic.h>
#include <stdio.h>
#include <stdlib.h>
#include <sys/mman.h>
#include <sys/wait.h>
#include <time.h>
#include <unistd.h>

enum { LEN = 4, FRAME_LEN = 2 * LEN + 3, SLOT_LEN = 12, ADDRESS = 2, CONNECTION = 1 };
enum { WATCHDOG = 1000 };                         /* long, so that a busy machine doesn't stop the example */
enum { DRIVE_PERIOD = 1, CONTROLLER_PERIOD = 5 }; /* in milliseconds */
enum { OWN_RESET = 50, EXCHANGES = 100 };         /* data frames taken before the drive's reset, and before the end */
enum { MOST_MILLISECONDS = 20000 };               /* before the example gives up */
enum { MILLISECOND = 1000000, SECOND = 1000000000 };

/* A slot, which one end writes and the other reads. Its frame is in the first bytes; the last one isn't used. */
struct slot {
    atomic_uint number; /* odd while the bytes are written */
    atomic_uchar bytes[SLOT_LEN];
};

struct image {
    struct slot to_drive, to_controller;
};

static gp_frame out;
static gp_did did;
static unsigned resets, exchanges;

static void stop(const char *why) {
    fprintf(stderr, "cyclic: %s\n", why);
    exit(1);
}

/* Waits for the next time to look, or not if it was missed. */
static void wait_for_next(struct timespec *wake, unsigned period) {
    wake->tv_nsec += (long)period * MILLISECOND;
    if (wake->tv_nsec >= SECOND) {
        wake->tv_nsec -= SECOND;
        wake->tv_sec++;
    }
    while (clock_nanosleep(CLOCK_MONOTONIC, TIMER_ABSTIME, wake, NULL) == EINTR) {
    }
}

/* Writes a frame, if there is one, and else leaves what is there. */
static void slot_write(struct slot *slot, const gp_frame *frame) {
    const struct timespec pause = {.tv_nsec = MILLISECOND / 5};
    if (frame->len == 0) return;
    slot->number++;
    for (size_t i = 0; i < frame->len; i++) {
        if (i == frame->len / 2) (void)nanosleep(&pause, NULL);
        slot->bytes[i] = frame->bytes[i];
    }
    slot->number++;
}

/* False if the bytes aren't those of one frame. */
static bool slot_read(struct slot *slot, uint8_t *frame) {
    const unsigned number = slot->number;
    for (size_t i = 0; i < FRAME_LEN; i++) frame[i] = slot->bytes[i];
    return number % 2 == 0 && slot->number == number;
}

/* The drive */

static gp_slave_memory slave_memory;
static gp_slave slave = GP_SLAVE_IN(&slave_memory);

static void drive_motor(bool on) {
    static bool was;
    if (on != was) printf("motor %s\n", on ? "on" : "off");
    was = on;
}

/* After each step of the drive: first the outputs, then the frame. */
static void drive_follows(struct image *image) {
    static uint16_t id = 2;
    uint8_t outputs[LEN] = {0};
    if (did.used) stop("a session id comes again");
    if (gp_slave_outputs(&slave, outputs, LEN) != GP_OK) stop("no outputs");
    drive_motor(outputs[0] & 1);
    slot_write(&image->to_controller, &out);
    exchanges += did.took == GP_COMMAND_PROCESS_DATA;
    if (did.reset == GP_NO_RESET) return;
    resets++;
    id = (uint16_t)(id + 2); /* a device stores it first: see drive.c */
    if (gp_slave_nonce(&slave, id) != GP_OK) stop("no session id");
}

/* Runs until the controller ended the session. */
static void run_drive(struct image *image) {
    const gp_slave_settings settings = {.master_len = LEN,
                                        .slave_len = LEN,
                                        .address = ADDRESS,
                                        .hand = WATCHDOG,
                                        .most = WATCHDOG,
                                        .profile = 1,
                                        .nonce = 2};
    struct timespec wake;
    uint8_t frame[FRAME_LEN];
    if (gp_slave_init(&slave, &settings, 0) != GP_OK) stop("the settings are refused");
    if (clock_gettime(CLOCK_MONOTONIC, &wake) != 0) stop("no clock");
    for (unsigned i = 0; i < MOST_MILLISECONDS && did.reset != GP_BY_PEER; i += DRIVE_PERIOD) {
        wait_for_next(&wake, DRIVE_PERIOD);
        if (gp_slave_tick(&slave, &out, &did) != GP_OK) stop("no slave");
        drive_follows(image);
        if (exchanges == OWN_RESET && resets == 0) {
            if (gp_slave_reset(&slave, &out, &did) != GP_OK) stop("no slave");
            drive_follows(image);
        }
        if (!slot_read(&image->to_drive, frame)) continue;
        if (gp_slave_deliver(&slave, frame, sizeof frame, &out, &did) != GP_OK) stop("no slave");
        drive_follows(image);
    }
}

/* The controller */

static gp_master_memory master_memory;
static gp_master master = GP_MASTER_IN(&master_memory);

static void controller_follows(struct image *image) {
    static uint16_t id = 1;
    if (did.used) stop("a session id comes again");
    slot_write(&image->to_drive, &out);
    exchanges += did.took == GP_COMMAND_PROCESS_DATA;
    if (did.reset == GP_NO_RESET) return;
    resets++;
    id++;
    if (gp_master_nonce(&master, id) != GP_OK) stop("no session id");
}

/* Runs for so many exchanges, and then ends the session. */
static void run_controller(struct image *image) {
    const gp_master_settings settings = {.master_len = LEN,
                                         .slave_len = LEN,
                                         .conn = CONNECTION,
                                         .address = ADDRESS,
                                         .watchdog = WATCHDOG,
                                         .profile = 1,
                                         .nonce = 1};
    const uint8_t order[LEN] = {1};
    struct timespec wake;
    uint8_t frame[FRAME_LEN];
    if (gp_master_init(&master, &settings, NULL, 0) != GP_OK) stop("the settings are refused");
    if (gp_master_put(&master, order, LEN) != GP_OK) stop("the order is refused");
    if (clock_gettime(CLOCK_MONOTONIC, &wake) != 0) stop("no clock");
    for (unsigned i = 0; i < MOST_MILLISECONDS && exchanges < EXCHANGES; i += CONTROLLER_PERIOD) {
        wait_for_next(&wake, CONTROLLER_PERIOD);
        for (unsigned k = 0; k < CONTROLLER_PERIOD; k++) {
            if (gp_master_tick(&master, &out, &did) != GP_OK) stop("no master");
            controller_follows(image);
        }
        if (!slot_read(&image->to_controller, frame)) continue;
        if (gp_master_deliver(&master, frame, sizeof frame, &out, &did) != GP_OK) stop("no master");
        controller_follows(image);
    }
    if (gp_master_reset(&master, &out, &did) != GP_OK) stop("no master");
    slot_write(&image->to_drive, &out);
}

int main(void) {
    int status = 0;
    struct image *image = mmap(NULL, sizeof *image, PROT_READ | PROT_WRITE, MAP_SHARED | MAP_ANONYMOUS, -1, 0);
    if (gp_version() != GP_VERSION) stop("header and archive are of two versions");
    if (image == MAP_FAILED) stop("no image");
    const pid_t child = fork();
    if (child < 0) stop("no second process");
    if (child == 0) {
        run_drive(image);
        printf("the drive: %u resets\n", resets);
        return 0;
    }
    run_controller(image);
    if (waitpid(child, &status, 0) != child || status != 0) stop("the drive failed");
    printf("the controller: %u resets, %u exchanges of data\n", resets, exchanges);
    return 0;
}
