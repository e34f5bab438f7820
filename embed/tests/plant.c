/*
 * A plant of any connections, blocks and drives, over a channel that keeps order: plant SETUP <SCRIPT
 *
 * It writes what `fsoe_tool plant` writes of the same, but for what comes after the ticks. After each step it looks at
 * what the readers tell. A line of SETUP is one of these, all numbers in decimal, and app in hexadecimal or `-`:
 *
 *     connection CONN ADDRESS WATCHDOG MASTER_LEN SLAVE_LEN SLAVE_ADDRESS HAND MOST MASTER_ID SLAVE_ID EXACT APP
 *     block KIND N [CONNECTION.NUMBER]..
 *     drive CONNECTION.BIT CONNECTION.NUMBER
 */
#include "../examples/plant.h"

enum { MOST_TEXT = 4096, MOST_BITS = 16 };

static gp_controller_memory memory;
static gp_unit region[GP_REGION_UNITS(GP_MOST_CONNECTIONS, GP_MOST_BLOCKS, GP_MOST_DRIVES)];
static gp_controller controller = GP_CONTROLLER_IN(&memory);
static gp_frame out;
static gp_did did;
static uint8_t offers[GP_MOST_CONNECTIONS][GP_MOST_DATA];
static gp_counts wanted_counts[GP_MOST_CONNECTIONS];
static uint16_t block_count;
static gp_bit outputs[GP_MOST_DRIVES];
static size_t drive_count;
/* The low input bits of each connection that guard a drive. */
static uint16_t guards[GP_MOST_DRIVES][GP_MOST_CONNECTIONS];

static void add_connection(const char *line) {
    static char hex[2 * GP_MOST_APP + 1];
    static uint8_t app[GP_MOST_APP];
    gp_master_settings ms = {.profile = 1};
    gp_slave_settings ss = {.profile = 1};
    uint16_t exact = 0, number = 0;
    const int read = sscanf(line, "connection %hu %hu %hu %hu %hu %hu %hu %hu %u %u %hu %1024s", &ms.conn, &ms.address,
                            &ms.watchdog, &ms.master_len, &ms.slave_len, &ss.address, &ss.hand, &ss.most, &ms.nonce,
                            &ss.nonce, &exact, hex);
    plant_must(read == 12, "a connection of the setup");
    const size_t len = plant_read_hex(hex, app, sizeof app);
    ss.master_len = ms.master_len;
    ss.slave_len = ms.slave_len;
    plant_must(gp_controller_connect(&controller, &ms, app, len, &number) == GP_OK, "a connection");
    plant_add_slave(&ss, app, (uint16_t)len, exact == 1);
    plant_must(number == slave_count, "the number of a connection");
}

static void add_block(char *line) {
    gp_wire inputs[GP_MOST_INPUTS] = {{0, 0}};
    uint16_t number = 0, v[2] = {0};
    size_t len = 0;
    plant_must(sscanf(line, "block %hu %hu", &v[0], &v[1]) == 2, "a block of the setup");
    for (char *word = strtok(line, " "); word != NULL; word = strtok(NULL, " ")) {
        gp_wire wire = {0, 0};
        if (sscanf(word, "%hu.%hu", &wire.connection, &wire.number) == 2) inputs[len++] = wire;
    }
    plant_must(gp_controller_block(&controller, (uint8_t)v[0], v[1], inputs, len, &number) == GP_OK, "a block");
    plant_must(number == ++block_count, "the number of a block");
}

static void add_drive(const char *line) {
    gp_wire from = {0, 0};
    gp_bit *to = &outputs[drive_count++];
    const int read = sscanf(line, "drive %hu.%hu %hu.%hu", &to->connection, &to->bit, &from.connection, &from.number);
    plant_must(read == 4 && gp_controller_drive(&controller, to, &from) == GP_OK, "a drive");
}

static void read_setup(const char *name) {
    static char line[MOST_TEXT];
    FILE *file = fopen(name, "r");
    plant_must(file != NULL, "the setup");
    while (fgets(line, sizeof line, file) != NULL) {
        if (line[0] == 'c') add_connection(line);
        if (line[0] == 'b') add_block(line);
        if (line[0] == 'd') add_drive(line);
    }
    plant_must(fclose(file) == 0, "the setup");
}

static bool has_bit(const uint8_t *bytes, uint16_t bit) {
    return (bytes[bit / 8] >> (bit % 8) & 1) != 0;
}

static uint16_t low_bits(uint16_t connection) {
    const uint16_t bits = (uint16_t)(8 * slave_of(connection)->slave_len);
    return bits < MOST_BITS ? bits : MOST_BITS;
}

static void ask_guards(void) {
    uint8_t answer = 0;
    for (size_t d = 0; d < drive_count; d++)
        for (uint16_t k = 1; k <= slave_count; k++)
            for (uint16_t bit = 0; bit < low_bits(k); bit++) {
                const gp_bit input = {k, bit};
                plant_must(gp_controller_guards(&controller, &outputs[d], &input, &answer) == GP_OK, "a guard");
                if (answer) guards[d][k - 1] |= (uint16_t)(1u << bit);
            }
}

/* A guarded output is 0 where its input is. */
static void look_at_guards(void) {
    uint8_t inputs[GP_MOST_DATA] = {0};
    for (uint16_t k = 1; k <= slave_count; k++) {
        uint16_t zeros = 0;
        plant_must(gp_controller_inputs(&controller, k, inputs, slave_of(k)->slave_len) == GP_OK, "the inputs");
        for (uint16_t bit = 0; bit < low_bits(k); bit++)
            if (!has_bit(inputs, bit)) zeros |= (uint16_t)(1u << bit);
        for (size_t d = 0; d < drive_count; d++)
            if (guards[d][k - 1] & zeros)
                plant_must(!has_bit(offers[outputs[d].connection - 1], outputs[d].bit), "a guarded output");
    }
}

/* After each step: the offers that it changed, and no other. */
static void look(void) {
    uint8_t offer[GP_MOST_DATA] = {0}, changed = 0;
    for (uint16_t k = 1; k <= slave_count; k++) {
        const size_t len = slave_of(k)->master_len;
        plant_must(gp_controller_offer(&controller, k, offer, len) == GP_OK, "an offer");
        plant_must(gp_controller_changed(&controller, k, &changed) == GP_OK, "what changed");
        plant_must(changed == (memcmp(offer, offers[k - 1], len) != 0), "an offer that changed");
        memcpy(offers[k - 1], offer, len);
    }
    look_at_guards();
}

/* Counts a step as the header says. */
static void count(uint16_t connection) {
    gp_counts *counts = &wanted_counts[connection - 1];
    const size_t code = did.code < GP_COUNTED_CODES - 1 ? did.code : GP_COUNTED_CODES - 1;
    counts->sessions += did.took == GP_COMMAND_RESET;
    counts->local += did.reset == GP_BY_CALL;
    counts->peer[code] += did.reset == GP_BY_PEER;
    counts->found[code] += did.reset == GP_BY_FAULT;
    if (did.dropped != GP_NOT_DROPPED) counts->dropped[did.dropped - 1]++;
}

/* What a connection and the blocks tell where others tell it too. */
static void look_at_rest(uint16_t connection) {
    static gp_terms terms;
    uint8_t state = 0, value = 0;
    uint16_t count = 0;
    plant_must(gp_controller_connections(&controller, &count) == GP_OK && count == slave_count, "the connections");
    plant_must(gp_controller_state(&controller, connection, &state) == GP_OK, "a state");
    const uint8_t answer = gp_controller_terms(&controller, connection, &terms);
    plant_must(answer == (state == GP_DATA ? GP_OK : GP_NOT_IN_DATA), "the terms");
    for (uint16_t b = 1; b <= block_count; b++)
        plant_must(gp_controller_value(&controller, b, &value) == GP_OK && value <= 1, "the value of a block");
    const uint16_t none = (uint16_t)(block_count + 1);
    plant_must(gp_controller_value(&controller, none, &value) == GP_NO_BLOCK, "a block that isn't there");
}

static void tick(void) {
    plant_tick_slaves();
    plant_must(gp_controller_tick(&controller) == GP_OK, "a tick");
    for (uint16_t k = 1; k <= slave_count; k++) {
        plant_must(gp_controller_ticked(&controller, k, &out, &did) == GP_OK, "what a tick did");
        plant_must(did.sent == (out.len != 0), "a frame of a tick");
        count(k);
        plant_push(k, true, &out);
        look_at_rest(k);
    }
    look();
}

static void pull_all(void) {
    const plant_parcel *parcel = NULL;
    for (int i = 0; i < MOST_PULLS && (parcel = plant_pull()) != NULL; i++) {
        const uint16_t k = parcel->connection;
        const gp_frame *frame = &parcel->frame;
        if (parcel->is_for_slave) {
            plant_deliver(k, frame);
            continue;
        }
        plant_must(gp_controller_deliver(&controller, k, frame->bytes, frame->len, &out, &did) == GP_OK, "a delivery");
        count(k);
        plant_push(k, true, &out);
        look();
    }
}

static void look_at_counts(void) {
    static const gp_counts zeros;
    gp_counts counts = {0};
    for (uint16_t k = 1; k <= slave_count; k++) {
        plant_must(gp_controller_counts(&controller, k, &counts) == GP_OK, "the counts");
        plant_must(memcmp(&counts, &wanted_counts[k - 1], sizeof counts) == 0, "the counts");
        plant_must(gp_controller_clear_counts(&controller, k) == GP_OK, "counts that are cleared");
        plant_must(gp_controller_counts(&controller, k, &counts) == GP_OK, "the counts");
        plant_must(memcmp(&counts, &zeros, sizeof counts) == 0, "counts that are cleared");
    }
}

int main(int argc, char **argv) {
    static const gp_most most = {GP_MOST_CONNECTIONS, GP_MOST_BLOCKS, GP_MOST_DRIVES};
    gp_fault fault = {0};
    unsigned ticks = 0, connection = 0;
    uint32_t id = 0;
    enum plant_event event;
    plant_must(argc == 2, "usage: plant SETUP <SCRIPT");
    plant_must(gp_controller_open(&controller, region, sizeof region, &most) == GP_OK, "a controller");
    read_setup(argv[1]);
    plant_must(gp_controller_start(&controller, &fault) == GP_OK, "the net");
    ask_guards();
    look();
    while ((event = plant_next(&connection, &id)) != PLANT_OVER) {
        if (event == PLANT_MASTER_ID) {
            plant_must(gp_controller_nonce(&controller, (uint16_t)connection, id) == GP_OK, "a session id");
            continue;
        }
        tick();
        pull_all();
        plant_report(&controller, ++ticks);
    }
    printf("ticks %u\n", ticks);
    look_at_counts();
    plant_must(gp_controller_end(&controller) == GP_OK, "the end");
    return 0;
}
