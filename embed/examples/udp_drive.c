/*
 * The drive of drive.c over UDP, where frames get lost: udp_drive FOLDER [LOST [AGAIN [SEED [CONNECTION]]]]
 *
 * udp_controller or udp_estop is the other end, over the same folder; either may be killed and started again. LOST of
 * a hundred datagrams are lost, and the last frame is sent again every AGAIN milliseconds (0: it isn't). The program
 * tells when the motor goes on and off, and each reset, and ends when the controller left. What else a drive does is in
 * drive.c. If the folder has a file driveCONNECTION.offer, the number in it is the first byte that the drive offers. So
 * an operator's panel is this program too, with its buttons in that file, and without a motor.
 */
#include "udp.h"

static udp_bus bus;
static gp_slave_memory memory;
static gp_slave slave = GP_SLAVE_IN(&memory);
static gp_frame out;
static gp_did did;
static unsigned times_on;
static bool leaving; /* the controller said that it will end its session */
static bool over;

static const uint8_t off[MASTER_LEN] = {0};

static void drive_motor(const uint8_t outputs[MASTER_LEN]) {
    static bool was;
    const bool on = (outputs[0] & MOTOR) != 0;
    if (on != was) printf("motor %s\n", on ? "on" : "off");
    if (on && !was) times_on++;
    was = on;
}

/* Switches the motor off and ends: the one way out besides the end of main. */
static void stop(const char *why) {
    drive_motor(off);
    fprintf(stderr, "udp_drive: %s\n", why);
    exit(1);
}

/* Ends a session whose terms aren't those of this drive, before its first outputs: a slave takes any connection id. */
static void look_at_terms(void) {
    static gp_terms terms;
    const uint8_t answer = gp_slave_terms(&slave, &terms);
    if (answer == GP_NOT_IN_DATA || (answer == GP_OK && terms.conn == bus.connection)) return;
    if (gp_slave_reset(&slave, &out, &did) != GP_OK) stop("no reset");
}

/* After each step: first the outputs, then the frame, and last what may take long. */
static void follow(void) {
    uint8_t outputs[MASTER_LEN] = {0};
    if (did.used) stop("a session id comes again");
    look_at_terms();
    if (gp_slave_outputs(&slave, outputs, sizeof outputs) != GP_OK) stop("no outputs");
    drive_motor(outputs);
    if (out.len != 0) bus_send(&bus, &out);
    if (did.took == GP_COMMAND_PROCESS_DATA) leaving = (outputs[0] & LEAVING) != 0;
    if (did.reset == GP_NO_RESET) return;
    over = leaving;
    if (over) return;
    if (gp_slave_nonce(&slave, id_after_reset(&bus, 2, did.code)) != GP_OK) stop("no session id");
}

/* What the drive offers its master: ready, or what the file says. A file that can't be read is a stop. */
static void offer(void) {
    unsigned long first = READY;
    if (!read_number(&bus, name, "offer", &first)) first = 0;
    const uint8_t inputs[SLAVE_LEN] = {(uint8_t)first};
    if (gp_slave_put(&slave, inputs, sizeof inputs) != GP_OK) stop("the inputs are refused");
}

static void start(void) {
    bus.connection = connection;
    const gp_slave_settings settings = {.master_len = MASTER_LEN,
                                        .slave_len = SLAVE_LEN,
                                        .address = (uint16_t)(ADDRESS + bus.connection),
                                        .hand = WATCHDOG,
                                        .most = WATCHDOG,
                                        .profile = 1,
                                        .nonce = fresh_id(&bus, 2)};
    if (gp_version() != GP_VERSION) stop("header and archive are of two versions");
    if (gp_slave_init(&slave, &settings, 0) != GP_OK) stop("the settings are refused");
    if (!bus_open(&bus, settings.nonce)) stop("no bus");
}

int main(int argc, char **argv) {
    name = "drive", peer = "controller";
    (void)setvbuf(stdout, NULL, _IOLBF, 0);
    drive_motor(off);
    if (!read_words(argc, argv)) stop("usage: udp_drive FOLDER [LOST [AGAIN [SEED [CONNECTION]]]]");
    start();
    while (!over && next_millisecond()) {
        const uint8_t *frame = NULL;
        size_t len = 0;
        if (gp_slave_tick(&slave, &out, &did) != GP_OK) stop("no slave");
        follow();
        offer();
        for (int i = 0; i < MOST_FRAMES && (frame = bus_receive(&bus, &len)) != NULL; i++) {
            if (gp_slave_deliver(&slave, frame, len, &out, &did) != GP_OK) stop("no slave");
            follow();
        }
        bus_send_again(&bus);
    }
    drive_motor(off);
    printf("switched on %u times, %u resets\n", times_on, bus.resets);
    return over ? 0 : 1;
}
