/*
 * The controller of controller.c over UDP, where frames get lost:
 * udp_controller FOLDER [LOST [AGAIN [SEED [CONNECTION]]]]
 *
 * udp_drive is the other end, over the same folder; its source says what the words are. The program tells each reset.
 * After EXCHANGES of data it orders the motor off and says that it leaves. It leaves when the drive has answered that.
 */
#include "udp.h"

enum { EXCHANGES = 200 };

static udp_bus bus;
static gp_master_memory memory;
static gp_master master = GP_MASTER_IN(&memory);
static gp_frame out;
static gp_did did;
static unsigned exchanges;

/* Ends the session at both ends. A frame that is due isn't sent: its order may no longer be right. */
static void leave(void) {
    uint8_t answer = gp_master_reset(&master, &out, &did);
    if (answer == GP_FRAME_DUE && gp_master_reply(&master, &out) == GP_OK) {
        answer = gp_master_reset(&master, &out, &did);
    }
    if (answer == GP_OK) bus_send_end(&bus, &out);
}

static void stop(const char *why) {
    leave();
    fprintf(stderr, "udp_controller: %s\n", why);
    exit(1);
}

/* Enables the motor if the drive says that it is ready. The inputs are zeros in every state but GP_DATA, so after a
   reset the first order is off. */
static void decide(void) {
    uint8_t inputs[SLAVE_LEN] = {0}, order[MASTER_LEN] = {0};
    if (gp_master_inputs(&master, inputs, sizeof inputs) != GP_OK) stop("no inputs");
    if (inputs[0] & READY) order[0] = exchanges < EXCHANGES ? MOTOR : LEAVING;
    if (gp_master_put(&master, order, sizeof order) != GP_OK) stop("the order is refused");
}

/* After each step, when its frame is sent: what may take long. */
static void follow(void) {
    if (did.reset == GP_NO_RESET) return;
    if (gp_master_nonce(&master, id_after_reset(&bus, 1, did.code)) != GP_OK) stop("no session id");
}

/* Accepts a frame, decides, and sends the frame that is due. */
static void came(const uint8_t *frame, size_t len) {
    uint8_t is_due = 0;
    if (gp_master_accept(&master, frame, len, &did) != GP_OK) stop("no master");
    if (did.used) stop("a session id comes again");
    if (gp_master_due(&master, &is_due) != GP_OK) stop("no master");
    if (did.took == GP_COMMAND_PROCESS_DATA) exchanges++;
    decide();
    if (is_due) {
        if (gp_master_reply(&master, &out) != GP_OK) stop("no answer");
        bus_send(&bus, &out);
    }
    follow();
}

/* Counts a tick. If the watchdog expires, the inputs are zeros at once. */
static void passed(void) {
    if (gp_master_tick(&master, &out, &did) != GP_OK) stop("no master");
    decide();
    if (out.len != 0) bus_send(&bus, &out);
    follow();
}

static void start(void) {
    bus.connection = connection;
    const gp_master_settings settings = master_settings(&bus);
    static const uint8_t app[1]; /* no application parameters: none of these bytes */
    if (gp_version() != GP_VERSION) stop("header and archive are of two versions");
    if (gp_master_init(&master, &settings, app, 0) != GP_OK) stop("the settings are refused");
    if (!bus_open(&bus, settings.nonce)) stop("no bus");
}

int main(int argc, char **argv) {
    name = "controller", peer = "drive";
    (void)setvbuf(stdout, NULL, _IOLBF, 0);
    if (!read_words(argc, argv)) stop("usage: udp_controller FOLDER [LOST [AGAIN [SEED [CONNECTION]]]]");
    start();
    while (exchanges <= EXCHANGES && next_millisecond()) { /* one more, for the answer to LEAVING */
        const uint8_t *frame = NULL;
        size_t len = 0;
        passed();
        for (int i = 0; i < MOST_FRAMES && (frame = bus_receive(&bus, &len)) != NULL; i++) came(frame, len);
        bus_send_again(&bus);
    }
    leave();
    printf("%u resets\n", bus.resets);
    return exchanges > EXCHANGES ? 0 : 1;
}
