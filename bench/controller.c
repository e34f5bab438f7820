/*
 * A controller of so many connections and blocks, for bench/embedding to count what its calls execute, and how many
 * bytes its region has to have: controller CONNECTIONS BLOCKS STEPS
 * All connections come to data first; then each step is a tick and a delivery of data. The blocks are of all kinds in
 * turn and read the block before them and input bits; each connection has a drive.
 */
#include <gatepast_controller.h>
#include <stdio.h>
#include <stdlib.h>

enum { LEN = 2, WATCHDOG = 65535, COMING_UP = 12 };

static gp_controller_memory memory;
static gp_controller controller = GP_CONTROLLER_IN(&memory);
static gp_slave_memory slave_memory[GP_MOST_CONNECTIONS];
static gp_slave slaves[GP_MOST_CONNECTIONS];
static gp_frame frames[GP_MOST_CONNECTIONS], answer, none;
static gp_did did;
static gp_unit region[1 << 16];
static uint8_t data[LEN], state;

static void must(uint8_t answered) {
    if (answered == GP_OK) return;
    fprintf(stderr, "controller: a call answered %d\n", answered);
    exit(1);
}

/* Whether there was room: each call that has none answers so. */
static bool had_room(uint8_t answered) {
    if (answered == GP_NO_MEMORY) return false;
    must(answered);
    return true;
}

static bool make_end(uint16_t connection) {
    const gp_master_settings ms = {.master_len = LEN,
                                   .slave_len = LEN,
                                   .conn = connection,
                                   .address = 2,
                                   .watchdog = WATCHDOG,
                                   .profile = 1,
                                   .nonce = 1};
    const gp_slave_settings ss = {.master_len = LEN,
                                  .slave_len = LEN,
                                  .address = 2,
                                  .hand = WATCHDOG,
                                  .most = WATCHDOG,
                                  .profile = 1,
                                  .nonce = 2};
    gp_slave *slave = &slaves[connection - 1];
    uint16_t number = 0;
    *slave = (gp_slave)GP_SLAVE_IN(&slave_memory[connection - 1]);
    must(gp_slave_init(slave, &ss, 0));
    return had_room(gp_controller_connect(&controller, &ms, data, 0, &number));
}

static bool make_block(uint16_t number, uint16_t connections) {
    static const uint8_t inputs_len[] = {0, 0, 8, 8, 2, 2, 2, 1, 1, 2}; /* by enum gp_kind */
    gp_wire inputs[GP_MOST_INPUTS];
    const uint8_t kind = (uint8_t)(number % sizeof inputs_len);
    uint16_t made = 0;
    for (uint16_t i = 0; i < inputs_len[kind]; i++) inputs[i] = (gp_wire){(uint16_t)(1 + number % connections), i};
    if (number > 1) inputs[0] = (gp_wire)GP_BLOCK((uint16_t)(number - 1));
    return had_room(gp_controller_block(&controller, kind, 3, inputs, inputs_len[kind], &made));
}

/* Makes the controller over a region of so many units, if these are enough. */
static bool make(uint16_t connections, uint16_t blocks, size_t units) {
    const gp_most most = {connections, blocks, connections};
    gp_fault fault;
    if (!had_room(gp_controller_open(&controller, region, units * sizeof *region, &most))) return false;
    for (uint16_t k = 1; k <= connections; k++)
        if (!make_end(k)) return false;
    for (uint16_t b = 1; b <= blocks; b++)
        if (!make_block(b, connections)) return false;
    for (uint16_t k = 1; k <= connections; k++) {
        const gp_bit output = {k, 0};
        const gp_wire from = GP_BLOCK((uint16_t)(1 + k % blocks));
        if (!had_room(gp_controller_drive(&controller, &output, &from))) return false;
    }
    must(gp_controller_start(&controller, &fault));
    return true;
}

/* Makes it over the least region that is enough, and returns how many units that has. */
static size_t make_tightly(uint16_t connections, uint16_t blocks) {
    size_t too_few = 0, enough = sizeof region / sizeof *region;
    while (enough - too_few > 1) {
        const size_t tried = (too_few + enough) / 2;
        if (make(connections, blocks, tried))
            enough = tried;
        else
            too_few = tried;
        if (controller.live) must(gp_controller_end(&controller));
    }
    must(make(connections, blocks, enough) ? GP_OK : GP_NO_MEMORY);
    return enough;
}

static void exchange(uint16_t connection) {
    gp_frame *frame = &frames[connection - 1];
    data[0]++;
    must(gp_slave_put(&slaves[connection - 1], data, LEN));
    must(gp_slave_deliver(&slaves[connection - 1], frame->bytes, frame->len, &answer, &did));
    must(gp_controller_deliver(&controller, connection, answer.bytes, answer.len, frame, &did));
}

int main(int count, char **words) {
    if (count != 4) return 2;
    const uint16_t connections = (uint16_t)atoi(words[1]), blocks = (uint16_t)atoi(words[2]);
    const size_t units = make_tightly(connections, blocks);
    must(gp_controller_tick(&controller));
    for (uint16_t k = 1; k <= connections; k++) must(gp_controller_ticked(&controller, k, &frames[k - 1], &did));
    for (unsigned i = 0; i < COMING_UP; i++)
        for (uint16_t k = 1; k <= connections; k++) exchange(k);
    for (int step = atoi(words[3]); step > 0; step--) {
        must(gp_controller_tick(&controller));
        must(gp_controller_ticked(&controller, 1, &none, &did));
        exchange(1);
    }
    must(gp_controller_state(&controller, connections, &state));
    printf("%zu\n", units * sizeof *region);
    return state == GP_DATA ? 0 : 1;
}
