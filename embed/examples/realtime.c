/*
 * Both ends as cyclic real-time loops of Linux, each in a process of its own, over a pair of datagram sockets. A loop
 * wakes at each millisecond of the monotonic clock. It delivers the frames that came, counts a tick for each millisecond
 * that passed, also for one that it missed, and sends. Its memory is locked, and it allocates nothing.
 *
 * If it has the right, it takes the policy SCHED_FIFO. How late a loop wakes is up to the kernel: take one with
 * PREEMPT_RT, keep a processor free for the loop, and measure. The longest lateness belongs into the sum of
 * docs/dimensioning.md, and a second clock has to see a loop that stands still. What else a device does is in drive.c and
 * controller.c.
 */
#define _GNU_SOURCE
#include <errno.h>
#include <gatepast.h>
#include <sched.h>
#include <stdio.h>
#include <stdlib.h>
#include <sys/mman.h>
#include <sys/socket.h>
#include <sys/wait.h>
#include <time.h>
#include <unistd.h>

enum { LEN = 2, ADDRESS = 2, CONNECTION = 1, WATCHDOG = 100 };
enum { MOST_FRAMES = 4 };          /* delivered in a millisecond, so that ticks never wait for frames */
enum { EXCHANGES = 100 };          /* of data, before the controller ends the session */
enum { MOST_MILLISECONDS = 30000 }; /* before the example gives up */
enum { MILLISECOND = 1000000, SECOND = 1000000000 };

static gp_slave_memory slave_memory;
static gp_slave slave = GP_SLAVE_IN(&slave_memory);
static gp_master_memory master_memory;
static gp_master master = GP_MASTER_IN(&master_memory);
static gp_frame out;
static gp_did did;

/* What a loop does at its end. */
struct end {
    const char *name;
    uint8_t (*deliver)(const uint8_t *frame, size_t len);
    uint8_t (*tick)(void);
    uint8_t (*nonce)(uint16_t id);
};

static uint8_t slave_deliver(const uint8_t *frame, size_t len) {
    return gp_slave_deliver(&slave, frame, len, &out, &did);
}

static uint8_t slave_tick(void) {
    return gp_slave_tick(&slave, &out, &did);
}

static uint8_t slave_nonce(uint16_t id) {
    return gp_slave_nonce(&slave, id);
}

static uint8_t master_deliver(const uint8_t *frame, size_t len) {
    return gp_master_deliver(&master, frame, len, &out, &did);
}

static uint8_t master_tick(void) {
    return gp_master_tick(&master, &out, &did);
}

static uint8_t master_nonce(uint16_t id) {
    return gp_master_nonce(&master, id);
}

static const struct end drive = {"drive", slave_deliver, slave_tick, slave_nonce};
static const struct end controller = {"controller", master_deliver, master_tick, master_nonce};

static void stop(const char *why) {
    fprintf(stderr, "realtime: %s\n", why);
    exit(1);
}

/* Keeps the memory of this process in place, and asks for its priority. */
static void be_real_time(const struct end *end) {
    const struct sched_param priority = {.sched_priority = 80};
    if (mlockall(MCL_CURRENT | MCL_FUTURE) != 0) fprintf(stderr, "%s: its memory isn't locked\n", end->name);
    if (sched_setscheduler(0, SCHED_FIFO, &priority) != 0) fprintf(stderr, "%s: no real-time priority\n", end->name);
}

static void add_millisecond(struct timespec *time) {
    time->tv_nsec += MILLISECOND;
    if (time->tv_nsec < SECOND) return;
    time->tv_nsec -= SECOND;
    time->tv_sec++;
}

/* The nanoseconds from one time to another. */
static long long from_to(const struct timespec *from, const struct timespec *to) {
    return (to->tv_sec - from->tv_sec) * (long long)SECOND + (to->tv_nsec - from->tv_nsec);
}

/* Waits for the next millisecond, and returns how many passed: one, and one more for each that was missed. */
static unsigned wait_for_next(struct timespec *wake, long long *latest) {
    struct timespec now;
    unsigned passed = 1;
    add_millisecond(wake);
    while (clock_nanosleep(CLOCK_MONOTONIC, TIMER_ABSTIME, wake, NULL) == EINTR) {
    }
    if (clock_gettime(CLOCK_MONOTONIC, &now) != 0) stop("no clock");
    if (from_to(wake, &now) > *latest) *latest = from_to(wake, &now);
    for (; from_to(wake, &now) >= MILLISECOND; passed++) add_millisecond(wake);
    return passed;
}

/* After each step: sends the frame, and gives a fresh id after a reset. A device stores the id first: see drive.c. */
static void follow(const struct end *end, int bus) {
    static uint16_t id = 2;
    if (out.len != 0 && send(bus, out.bytes, out.len, MSG_DONTWAIT) < 0) fprintf(stderr, "%s: lost a frame\n", end->name);
    if (did.reset == GP_NO_RESET) return;
    if (id >= 0xFFFE) stop("all session ids are used up");
    id = (uint16_t)(id + 2);
    if (end->nonce(id) != GP_OK) stop("no session id");
}

/* Runs until so many data frames were taken; at the drive until the controller ended the session then. */
static void run(const struct end *end, int bus) {
    struct timespec wake;
    long long latest = 0;
    unsigned exchanges = 0;
    if (clock_gettime(CLOCK_MONOTONIC, &wake) != 0) stop("no clock");
    for (unsigned i = 0; i < MOST_MILLISECONDS; i++) {
        uint8_t frame[GP_MOST_FRAME];
        const unsigned passed = wait_for_next(&wake, &latest);
        for (int k = 0; k < MOST_FRAMES; k++) {
            const ssize_t len = recv(bus, frame, sizeof frame, MSG_DONTWAIT);
            if (len < 0) break;
            if (end->deliver(frame, (size_t)len) != GP_OK) stop("no end");
            exchanges += did.took == GP_COMMAND_PROCESS_DATA;
            follow(end, bus);
            if (exchanges >= EXCHANGES && (end == &controller || did.reset == GP_BY_PEER)) {
                fprintf(stderr, "%s: at most %lld us late\n", end->name, latest / 1000);
                return;
            }
        }
        for (unsigned k = 0; k < passed; k++) {
            if (end->tick() != GP_OK) stop("no end");
            follow(end, bus);
        }
    }
    stop("no data came");
}

static void run_drive(int bus) {
    const gp_slave_settings settings = {.master_len = LEN,
                                        .slave_len = LEN,
                                        .address = ADDRESS,
                                        .hand = 200,
                                        .most = WATCHDOG,
                                        .profile = 1,
                                        .nonce = 2};
    const uint8_t inputs[LEN] = {0x80, 0x00};
    if (gp_slave_init(&slave, &settings, 0) != GP_OK) stop("the settings are refused");
    if (gp_slave_put(&slave, inputs, sizeof inputs) != GP_OK) stop("the inputs are refused");
    be_real_time(&drive);
    run(&drive, bus);
}

static void run_controller(int bus) {
    const gp_master_settings settings = {.master_len = LEN,
                                         .slave_len = LEN,
                                         .conn = CONNECTION,
                                         .address = ADDRESS,
                                         .watchdog = WATCHDOG,
                                         .profile = 1,
                                         .nonce = 2};
    const uint8_t orders[LEN] = {0x01, 0x00};
    if (gp_master_init(&master, &settings, NULL, 0) != GP_OK) stop("the settings are refused");
    if (gp_master_put(&master, orders, sizeof orders) != GP_OK) stop("the orders are refused");
    be_real_time(&controller);
    run(&controller, bus);
    if (gp_master_reset(&master, &out, &did) != GP_OK) stop("no end");
    follow(&controller, bus);
}

int main(void) {
    int bus[2];
    int status = 0;
    if (gp_version() != GP_VERSION) stop("header and archive are of two versions");
    if (socketpair(AF_UNIX, SOCK_DGRAM, 0, bus) != 0) stop("no bus");
    const pid_t child = fork();
    if (child < 0) stop("no second process");
    if (child == 0) {
        run_drive(bus[1]);
        return 0;
    }
    run_controller(bus[0]);
    if (waitpid(child, &status, 0) != child || status != 0) stop("the drive failed");
    printf("%d data frames at each end, then a reset\n", EXCHANGES);
    return 0;
}
