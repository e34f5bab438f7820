/*
 * A controller of two connections: a stop with its acknowledgement, and a drive. It is that of
 * examples/emergency_stop.toml, whose comments say what its blocks do. The drive may run if the stop is released, both
 * connections are in data, and the acknowledgement was pressed and released since. Run it by
 *
 *     estop <examples/emergency_stop.script
 *
 * It writes what `fsoe_tool plant` writes of the same, but for the last line. plant.h has the machine: replace its
 * calls by those of your bus. Over a bus that loses frames send each connection's last frame again, as udp_estop.c does.
 */
#include "plant.h"

enum { STOP = 1, DRIVE = 2, CONNECTIONS = 2, LEN = 2, WATCHDOG = 5 };
enum { MOST_RESETS = 100 }; /* of a connection; after so many a person has to look */

static gp_controller_memory memory;
static gp_unit region[GP_REGION_UNITS(2, 6, 1)];
static gp_controller controller = GP_CONTROLLER_IN(&memory);
static gp_frame out;
static gp_did did;

/* The settings of each connection, but for the session id. */
static const gp_master_settings connections[CONNECTIONS] = {
    {.master_len = LEN, .slave_len = LEN, .conn = 1, .address = 11, .watchdog = WATCHDOG, .profile = 1},
    {.master_len = LEN, .slave_len = LEN, .conn = 2, .address = 12, .watchdog = WATCHDOG, .profile = 1},
};

/* The blocks, b1 to b6. */
static const struct {
    uint8_t kind;
    gp_wire inputs[2];
} blocks[] = {
    {GP_AND, {GP_INPUT(STOP, 0), GP_INPUT(DRIVE, 0)}}, /* the stop is released, and the drive is there */
    {GP_LATCH, {GP_INPUT(STOP, 2), GP_BLOCK(1)}},      /* the acknowledgement was seen released */
    {GP_AND, {GP_BLOCK(2), GP_INPUT(STOP, 1)}},        /* it is pressed after that */
    {GP_LATCH, {GP_BLOCK(3), GP_BLOCK(1)}},            /* it was */
    {GP_AND, {GP_BLOCK(4), GP_INPUT(STOP, 2)}},        /* it is released again after that */
    {GP_ESTOP, {GP_BLOCK(1), GP_BLOCK(5)}},            /* on from then until b1 falls */
};
enum { BLOCKS = sizeof blocks / sizeof *blocks };

static const gp_bit drive_on = {DRIVE, 0};
static const gp_wire drive_from = GP_BLOCK(BLOCKS);

/* The drive is to be off whenever one of these is 0. */
static const gp_bit stops[] = {{STOP, 0}, {DRIVE, 0}};

/* Ends the session of each connection, and the program. */
static void stop(const char *why) {
    for (uint16_t k = 1; k <= CONNECTIONS; k++)
        if (gp_controller_reset(&controller, k, &out, &did) == GP_OK) plant_push(k, true, &out);
    fprintf(stderr, "estop: %s\n", why);
    exit(1);
}

/* A session id that no session of this connection had. Here each run begins anew; no device may: controller.c keeps it
   in memory that outlasts power-off. */
static uint32_t fresh_id(uint16_t connection) {
    static uint16_t last[CONNECTIONS];
    if (last[connection - 1] == 0xFFFF) stop("all session ids are used up");
    return ++last[connection - 1];
}

static void make_controller(void) {
    static const gp_most most = {.connections = CONNECTIONS, .blocks = BLOCKS, .drives = 1};
    static const uint8_t app[1]; /* no application parameters: none of these bytes */
    uint16_t number = 0;
    uint8_t guards = 0;
    gp_fault fault = {0};
    if (gp_controller_version() != GP_CONTROLLER_VERSION) stop("header and archive are of two versions");
    if (gp_controller_open(&controller, region, sizeof region, &most) != GP_OK) stop("no controller");
    for (uint16_t k = 1; k <= CONNECTIONS; k++) {
        gp_master_settings settings = connections[k - 1];
        settings.nonce = fresh_id(k);
        if (gp_controller_connect(&controller, &settings, app, 0, &number) != GP_OK) stop("a connection is refused");
    }
    for (size_t i = 0; i < BLOCKS; i++) {
        const uint8_t answer = gp_controller_block(&controller, blocks[i].kind, 0, blocks[i].inputs, 2, &number);
        if (answer != GP_OK) stop("a block is refused");
    }
    if (gp_controller_drive(&controller, &drive_on, &drive_from) != GP_OK) stop("a drive is refused");
    if (gp_controller_start(&controller, &fault) != GP_OK) stop("the net has a fault");
    for (size_t i = 0; i < sizeof stops / sizeof *stops; i++) {
        if (gp_controller_guards(&controller, &drive_on, &stops[i], &guards) != GP_OK) stop("no guards");
        if (guards == 0) stop("a stop doesn't stop the drive");
    }
}

/* After each step of a connection: its frame, and a fresh id for the next session. */
static void follow(uint16_t connection) {
    static unsigned resets[CONNECTIONS];
    plant_push(connection, true, &out);
    if (did.reset == GP_NO_RESET) return;
    if (++resets[connection - 1] > MOST_RESETS) stop("too many resets");
    if (gp_controller_nonce(&controller, connection, fresh_id(connection)) != GP_OK) stop("no session id");
}

static void came(uint16_t connection, const gp_frame *frame) {
    const uint8_t answer = gp_controller_deliver(&controller, connection, frame->bytes, frame->len, &out, &did);
    if (answer != GP_OK) stop("no delivery");
    follow(connection);
}

/* A millisecond. Ticks that passed are counted before the frames that waited. */
static void millisecond(void) {
    const plant_parcel *parcel = NULL;
    plant_tick_slaves();
    if (gp_controller_tick(&controller) != GP_OK) stop("no tick");
    for (uint16_t k = 1; k <= CONNECTIONS; k++) {
        if (gp_controller_ticked(&controller, k, &out, &did) != GP_OK) stop("no tick");
        follow(k);
    }
    for (int i = 0; i < MOST_PULLS && (parcel = plant_pull()) != NULL; i++) {
        if (parcel->is_for_slave)
            plant_deliver(parcel->connection, &parcel->frame);
        else
            came(parcel->connection, &parcel->frame);
    }
}

static void make_machine(void) {
    for (size_t i = 0; i < CONNECTIONS; i++) {
        const gp_slave_settings settings = {.master_len = LEN,
                                            .slave_len = LEN,
                                            .address = connections[i].address,
                                            .hand = WATCHDOG,
                                            .most = 65535,
                                            .profile = 1,
                                            .nonce = 2};
        plant_add_slave(&settings, NULL, 0, false);
    }
}

int main(void) {
    unsigned ticks = 0, connection = 0;
    uint32_t id = 0;
    make_machine();
    make_controller();
    while (plant_next(&connection, &id) == PLANT_TICK) {
        millisecond();
        plant_report(&controller, ++ticks);
    }
    printf("ticks %u\n", ticks);
    return gp_controller_end(&controller) == GP_OK ? 0 : 1;
}
