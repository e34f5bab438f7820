/*
 * A controller of three connections over UDP, where frames get lost: udp_estop FOLDER [LOST [AGAIN [SEED]]]
 *
 * Connection 1 is an operator's panel, and connections 2 and 3 are drives. Both motors may run if the stop is released,
 * all three connections are in data, and the acknowledgement was pressed and released since. The blocks are those of
 * estop.c, with a drive more.
 *
 * The other ends are three processes of udp_drive, over the same folder, with these numbers. Each may be killed and
 * started again, and so may this one. The panel's buttons are a number in the file drive1.offer:
 *
 *     mkdir folder; echo 5 >folder/drive1.offer; udp_estop folder &
 *     udp_drive folder 10 3 1 1 & udp_drive folder 10 3 2 2 & udp_drive folder 10 3 3 3 &
 *     echo 3 >folder/new; mv folder/new folder/drive1.offer
 *
 * 5: the stop is released; 3: the acknowledgement is pressed besides; 4: the stop is pressed; 12: and the key is turned
 * that ends all four programs. Without it they give up after 20 seconds. Each connection has a bus of its own, which
 * sends its last frame again.
 */
#include "udp.h"
#include <gatepast_controller.h>

enum { PANEL = 1, LEFT, RIGHT, CONNECTIONS = RIGHT };
enum { RELEASED, ACK_PRESSED, ACK_RELEASED, KEY };  /* bits of the panel */
enum { DRIVE_READY = 7, MOTOR_ON = 0, LEAVES = 1 }; /* bits of READY, MOTOR and LEAVING */
enum { MAY_START = 1, ACKNOWLEDGED = 4, RUNS = 6 }; /* blocks that are told */

static udp_bus buses[CONNECTIONS + 1]; /* each array's place 0 is unused */
static gp_controller_memory memory;
static gp_unit region[GP_REGION_UNITS(3, 6, 5)];
static gp_controller controller = GP_CONTROLLER_IN(&memory);
static gp_frame out;
static gp_did did;
static unsigned times_on[CONNECTIONS + 1];
static unsigned answered[CONNECTIONS + 1]; /* data frames since the key was turned */
static bool ran_while_stopped;

static const struct {
    uint8_t kind, count;
    gp_wire inputs[3];
} blocks[] = {
    {GP_AND, 3, {GP_INPUT(PANEL, RELEASED), GP_INPUT(LEFT, DRIVE_READY), GP_INPUT(RIGHT, DRIVE_READY)}},
    {GP_LATCH, 2, {GP_INPUT(PANEL, ACK_RELEASED), GP_BLOCK(1)}}, /* the acknowledgement was seen released */
    {GP_AND, 2, {GP_BLOCK(2), GP_INPUT(PANEL, ACK_PRESSED)}},    /* it is pressed after that */
    {GP_LATCH, 2, {GP_BLOCK(3), GP_BLOCK(1)}},                   /* it was */
    {GP_AND, 2, {GP_BLOCK(4), GP_INPUT(PANEL, ACK_RELEASED)}},   /* it is released again after that */
    {GP_ESTOP, 2, {GP_BLOCK(1), GP_BLOCK(5)}},                   /* on from then until block 1 falls */
};
enum { BLOCKS = sizeof blocks / sizeof *blocks };

static const struct {
    gp_bit output;
    gp_wire from;
} drives[] = {
    {{LEFT, MOTOR_ON}, GP_BLOCK(RUNS)}, /* the motors first */
    {{RIGHT, MOTOR_ON}, GP_BLOCK(RUNS)},
    {{PANEL, LEAVES}, GP_INPUT(PANEL, KEY)},
    {{LEFT, LEAVES}, GP_INPUT(PANEL, KEY)},
    {{RIGHT, LEAVES}, GP_INPUT(PANEL, KEY)},
};
enum { DRIVES = sizeof drives / sizeof *drives, MOTORS = 2 };

/* Each motor is to be off whenever one of these is 0. */
static const gp_bit stops[] = {{PANEL, RELEASED}, {LEFT, DRIVE_READY}, {RIGHT, DRIVE_READY}};

/* Ends the session of each connection, at both ends. */
static void leave(void) {
    for (uint16_t k = 1; k <= CONNECTIONS; k++)
        if (gp_controller_reset(&controller, k, &out, &did) == GP_OK) bus_send_end(&buses[k], &out);
}

static void stop(const char *why) {
    leave();
    fprintf(stderr, "udp_estop: %s\n", why);
    exit(1);
}

static void make_connections(void) {
    static const uint8_t app[1]; /* no application parameters: none of these bytes */
    uint16_t number = 0;
    for (uint16_t k = 1; k <= CONNECTIONS; k++) {
        buses[k].connection = k;
        const gp_master_settings settings = master_settings(&buses[k]);
        if (gp_controller_connect(&controller, &settings, app, 0, &number) != GP_OK) stop("a connection is refused");
        if (!bus_open(&buses[k], settings.nonce)) stop("no bus");
    }
}

static void make_net(void) {
    uint16_t number = 0;
    gp_fault fault = {0};
    for (size_t i = 0; i < BLOCKS; i++) {
        const gp_wire *inputs = blocks[i].inputs;
        const uint8_t answer = gp_controller_block(&controller, blocks[i].kind, 0, inputs, blocks[i].count, &number);
        if (answer != GP_OK) stop("a block is refused");
    }
    for (size_t i = 0; i < DRIVES; i++)
        if (gp_controller_drive(&controller, &drives[i].output, &drives[i].from) != GP_OK) stop("a drive is refused");
    if (gp_controller_start(&controller, &fault) != GP_OK) stop("the net has a fault");
}

static void start(void) {
    static const gp_most most = {.connections = CONNECTIONS, .blocks = BLOCKS, .drives = DRIVES};
    uint8_t guards = 0;
    if (gp_controller_version() != GP_CONTROLLER_VERSION) stop("header and archive are of two versions");
    if (gp_controller_open(&controller, region, sizeof region, &most) != GP_OK) stop("no controller");
    make_connections();
    make_net();
    for (size_t i = 0; i < MOTORS * sizeof stops / sizeof *stops; i++) {
        const gp_bit *motor = &drives[i % MOTORS].output, *input = &stops[i / MOTORS];
        if (gp_controller_guards(&controller, motor, input, &guards) != GP_OK) stop("no guards");
        if (guards == 0) stop("a stop doesn't stop a motor");
    }
}

/* Whether a button of the panel says 1. Without its connection each says 0. */
static bool panel_says(int button) {
    uint8_t inputs[SLAVE_LEN] = {0};
    if (gp_controller_inputs(&controller, PANEL, inputs, sizeof inputs) != GP_OK) stop("no inputs");
    return (inputs[0] >> button & 1) != 0;
}

/* Tells when a block changes, so that the operator sees what the controller waits for. */
static void tell(uint16_t block, const char *what) {
    static uint8_t was[BLOCKS + 1];
    uint8_t value = 0;
    if (gp_controller_value(&controller, block, &value) != GP_OK) stop("no value");
    if (value != was[block]) printf("%s: %s\n", what, value ? "yes" : "no");
    was[block] = value;
}

/* After each cycle: what it ordered, and what the blocks say. */
static void look(void) {
    static bool was_on[CONNECTIONS + 1];
    for (uint16_t k = LEFT; k <= RIGHT; k++) {
        uint8_t order[MASTER_LEN] = {0};
        if (gp_controller_offer(&controller, k, order, sizeof order) != GP_OK) stop("no order");
        const bool on = (order[0] & MOTOR) != 0;
        if (on && !was_on[k]) times_on[k]++;
        if (on && !panel_says(RELEASED)) ran_while_stopped = true;
        was_on[k] = on;
    }
    tell(MAY_START, "may be acknowledged");
    tell(ACKNOWLEDGED, "acknowledgement seen");
    tell(RUNS, "motors may run");
}

/* After each step of a connection: first its frame, then what may take long, a fresh id for its next session. While it
   is stored, the other connections wait: each watchdog has to be longer than that. */
static void follow(uint16_t k) {
    if (out.len != 0) bus_send(&buses[k], &out);
    if (did.reset == GP_NO_RESET) return;
    const uint16_t id = id_after_reset(&buses[k], 1, did.code);
    if (gp_controller_nonce(&controller, k, id) != GP_OK) stop("no session id");
}

/* What answers a connection's first data frame since the key was turned has LEAVING. Its second one answers that. */
static void came(uint16_t k, const uint8_t *frame, size_t len) {
    if (gp_controller_deliver(&controller, k, frame, len, &out, &did) != GP_OK) stop("no delivery");
    follow(k);
    look();
    if (did.took == GP_COMMAND_PROCESS_DATA) answered[k] = panel_says(KEY) ? answered[k] + 1 : 0;
}

static void passed(void) {
    if (gp_controller_tick(&controller) != GP_OK) stop("no tick");
    for (uint16_t k = 1; k <= CONNECTIONS; k++) {
        if (gp_controller_ticked(&controller, k, &out, &did) != GP_OK) stop("no tick");
        follow(k);
    }
    look();
}

static bool is_over(void) {
    return answered[PANEL] >= 2 && answered[LEFT] >= 2 && answered[RIGHT] >= 2;
}

/* The resets that this program didn't order. */
static unsigned resets_of(uint16_t k) {
    gp_counts counts = {0};
    unsigned resets = 0;
    if (gp_controller_counts(&controller, k, &counts) != GP_OK) stop("no counts");
    for (size_t i = 0; i < GP_COUNTED_CODES; i++) resets += counts.peer[i] + counts.found[i];
    return resets;
}

int main(int argc, char **argv) {
    name = "controller", peer = "drive";
    (void)setvbuf(stdout, NULL, _IOLBF, 0);
    if (!read_words(argc, argv) || argc > 5) stop("usage: udp_estop FOLDER [LOST [AGAIN [SEED]]]");
    start();
    while (!is_over() && next_millisecond()) { /* each millisecond is ticked before a frame that waits is delivered */
        const uint8_t *frame = NULL;
        size_t len = 0;
        passed();
        for (uint16_t k = 1; k <= CONNECTIONS; k++) {
            for (int i = 0; i < MOST_FRAMES && (frame = bus_receive(&buses[k], &len)) != NULL; i++) came(k, frame, len);
            bus_send_again(&buses[k]);
        }
    }
    printf("resets %u %u %u, motors switched on %u %u times, ", resets_of(1), resets_of(2), resets_of(3), times_on[2],
           times_on[3]);
    printf("%s while the stop was pressed\n", ran_while_stopped ? "on" : "off");
    leave();
    return is_over() ? 0 : 1;
}
