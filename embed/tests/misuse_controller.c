/*
 * What a controller refuses, by which number, and that it changes nothing then: each refusal of the header is tried,
 * and two at once where the header says which comes first. Then steps of one connection whose results other tests don't
 * see.
 */
#include <gatepast_controller.h>
#include <stdio.h>
#include <stdlib.h>
#include <string.h>

enum { LEN = 2, WATCHDOG = 9, UNTOUCHED = 0xA5 };

static gp_controller_memory memory, before;
static gp_controller controller = GP_CONTROLLER_IN(&memory);
static gp_slave_memory slave_memory;
static gp_slave slave = GP_SLAVE_IN(&slave_memory);
static gp_unit region[1 << 15];
static const gp_most most = {1, 1, 1}, all = {GP_MOST_CONNECTIONS, GP_MOST_BLOCKS, GP_MOST_DRIVES};
static gp_frame out, frame;
static gp_did did;
static gp_terms terms;
static gp_fault fault;
static gp_counts counts;
static uint8_t data[GP_MOST_APP + 1], flag;
static uint16_t number;
static unsigned tried;

static void must(int line, bool holds) {
    if (holds) return;
    fprintf(stderr, "misuse_controller: line %d doesn't hold\n", line);
    exit(1);
}

#define MUST(what) must(__LINE__, (what))

static void answers(int line, uint8_t wanted, uint8_t answer) {
    tried++;
    if (answer == wanted) return;
    fprintf(stderr, "misuse_controller: line %d answered %d instead of %d\n", line, answer, wanted);
    exit(1);
}

#define ANSWERS(wanted, call) answers(__LINE__, (wanted), (call))

static const gp_master_settings good = {
    .master_len = LEN, .slave_len = LEN, .conn = 1, .address = 2, .watchdog = WATCHDOG, .profile = 1, .nonce = 1};
static const gp_wire input = GP_INPUT(1, 0), first_block = GP_BLOCK(1), other_block = GP_BLOCK(2);
static const gp_bit input_bit = {1, 0}, output_bit = {1, 15};

/* Fills what calls write to. */
static void fill(void) {
    memset(&out, UNTOUCHED, sizeof out);
    memset(&did, UNTOUCHED, sizeof did);
    memset(&terms, UNTOUCHED, sizeof terms);
    memset(&fault, UNTOUCHED, sizeof fault);
    memset(&counts, UNTOUCHED, sizeof counts);
    memset(data, UNTOUCHED, sizeof data);
    flag = UNTOUCHED;
    number = UNTOUCHED;
}

static bool is_untouched(const void *at, size_t len) {
    for (size_t i = 0; i < len; i++)
        if (((const uint8_t *)at)[i] != UNTOUCHED) return false;
    return true;
}

static bool nothing_was_written(void) {
    return is_untouched(&out, sizeof out) && is_untouched(&did, sizeof did) && is_untouched(&terms, sizeof terms) &&
           is_untouched(&fault, sizeof fault) && is_untouched(&counts, sizeof counts) &&
           is_untouched(data, sizeof data) && flag == UNTOUCHED && number == UNTOUCHED;
}

/* Each call but open, at a connection and a block that may not be there. */
static void all_making(uint8_t wanted) {
    ANSWERS(wanted, gp_controller_connect(&controller, &good, data, sizeof data, &number));
    ANSWERS(wanted, gp_controller_block(&controller, 99, 0, &input, 1, &number));
    ANSWERS(wanted, gp_controller_drive(&controller, &output_bit, &input));
    ANSWERS(wanted, gp_controller_start(&controller, &fault));
}

static void all_steps(uint8_t wanted, uint16_t connection) {
    ANSWERS(wanted, gp_controller_deliver(&controller, connection, data, LEN, &out, &did));
    ANSWERS(wanted, gp_controller_ticked(&controller, connection, &out, &did));
    ANSWERS(wanted, gp_controller_reset(&controller, connection, &out, &did));
    ANSWERS(wanted, gp_controller_hold(&controller, connection, true));
    ANSWERS(wanted, gp_controller_nonce(&controller, connection, UINT32_MAX));
}

static void all_readers(uint8_t wanted, uint16_t connection) {
    ANSWERS(wanted, gp_controller_counts(&controller, connection, &counts));
    ANSWERS(wanted, gp_controller_clear_counts(&controller, connection));
    ANSWERS(wanted, gp_controller_state(&controller, connection, &flag));
    ANSWERS(wanted, gp_controller_inputs(&controller, connection, data, 1));
    ANSWERS(wanted, gp_controller_offer(&controller, connection, data, 1));
    ANSWERS(wanted, gp_controller_terms(&controller, connection, &terms));
    ANSWERS(wanted, gp_controller_age(&controller, connection, &number));
    ANSWERS(wanted, gp_controller_held(&controller, connection, &flag));
    ANSWERS(wanted, gp_controller_changed(&controller, connection, &flag));
}

static void no_controller(void) {
    fill();
    all_making(GP_NO_END);
    all_steps(GP_NO_END, 1);
    all_readers(GP_NO_END, 1);
    ANSWERS(GP_NO_END, gp_controller_end(&controller));
    ANSWERS(GP_NO_END, gp_controller_tick(&controller));
    ANSWERS(GP_NO_END, gp_controller_connections(&controller, &number));
    ANSWERS(GP_NO_END, gp_controller_value(&controller, 1, &flag));
    ANSWERS(GP_NO_END, gp_controller_guards(&controller, &output_bit, &input_bit, &flag));
    gp_controller nowhere = GP_CONTROLLER_IN(NULL);
    ANSWERS(GP_NO_ROOM, gp_controller_open(&nowhere, region, sizeof region, &all));
    ANSWERS(GP_NO_END, gp_controller_end(&nowhere));
    MUST(nothing_was_written());
}

/* A controller that doesn't run yet. */
static void opened(void) {
    ANSWERS(GP_OK, gp_controller_open(&controller, region, sizeof region, &all));
}

static void connected(uint16_t conn) {
    gp_master_settings set = good;
    set.conn = conn;
    ANSWERS(GP_OK, gp_controller_connect(&controller, &set, data, 0, &number));
}

/* A block that reads one wire. */
static void block_of(uint8_t kind, const gp_wire *from) {
    ANSWERS(GP_OK, gp_controller_block(&controller, kind, 0, from, 1, &number));
}

static void before_start(void) {
    opened();
    fill();
    before = memory;
    ANSWERS(GP_BUSY, gp_controller_open(&controller, region, 0, &all));
    all_steps(GP_NOT_RUNNING, 1);
    all_readers(GP_NO_CONNECTION, 1);
    ANSWERS(GP_NOT_RUNNING, gp_controller_tick(&controller));
    ANSWERS(GP_NOT_RUNNING, gp_controller_value(&controller, 1, &flag));
    ANSWERS(GP_NOT_RUNNING, gp_controller_guards(&controller, &output_bit, &input_bit, &flag));
    MUST(nothing_was_written() && memcmp(&before, &memory, sizeof memory) == 0);
    connected(1);
    MUST(number == 1);
    ANSWERS(GP_OK, gp_controller_state(&controller, 1, &flag));
    MUST(flag == GP_RESET);
    ANSWERS(GP_OK, gp_controller_end(&controller));
    no_controller();
}

/* One setting is bad, and then one more that the header names before it. */
static void bad_connections(void) {
    gp_master_settings set = good;
    opened();
    connected(1);
    fill();
    ANSWERS(GP_SAME_CONN, gp_controller_connect(&controller, &set, data, 0, &number));
    for (uint16_t conn = 2; conn <= GP_MOST_CONNECTIONS; conn++) connected(conn);
    MUST(number == GP_MOST_CONNECTIONS);
    number = UNTOUCHED;
    ANSWERS(GP_TOO_MANY, gp_controller_connect(&controller, &set, data, 0, &number));
    set.watchdog = 0;
    ANSWERS(GP_BAD_WATCHDOG, gp_controller_connect(&controller, &set, data, 0, &number));
    set.conn = 0;
    ANSWERS(GP_BAD_CONN, gp_controller_connect(&controller, &set, data, 0, &number));
    set.nonce = 65536;
    ANSWERS(GP_BAD_NONCE, gp_controller_connect(&controller, &set, data, 0, &number));
    set.profile = 3;
    ANSWERS(GP_BAD_PROFILE, gp_controller_connect(&controller, &set, data, 0, &number));
    set.slave_len = 3;
    ANSWERS(GP_BAD_LENGTH, gp_controller_connect(&controller, &set, data, 0, &number));
    ANSWERS(GP_BAD_APP, gp_controller_connect(&controller, &set, data, sizeof data, &number));
    MUST(nothing_was_written());
    ANSWERS(GP_OK, gp_controller_connections(&controller, &number));
    MUST(number == GP_MOST_CONNECTIONS);
    ANSWERS(GP_OK, gp_controller_end(&controller));
}

static void too_many(void) {
    static const gp_wire nine[GP_MOST_INPUTS + 1];
    opened();
    fill();
    ANSWERS(GP_TOO_MANY, gp_controller_block(&controller, GP_FEEDBACK + 1, 0, nine, GP_MOST_INPUTS + 1, &number));
    ANSWERS(GP_BAD_KIND, gp_controller_block(&controller, GP_FEEDBACK + 1, 0, nine, GP_MOST_INPUTS, &number));
    MUST(nothing_was_written());
    for (unsigned i = 1; i <= GP_MOST_BLOCKS; i++) {
        block_of(GP_CONST1, &input);
        MUST(number == i);
    }
    ANSWERS(GP_TOO_MANY, gp_controller_block(&controller, GP_CONST1, 0, NULL, 0, &number));
    for (unsigned i = 1; i <= GP_MOST_DRIVES; i++)
        ANSWERS(GP_OK, gp_controller_drive(&controller, &output_bit, &input));
    ANSWERS(GP_TOO_MANY, gp_controller_drive(&controller, &output_bit, &input));
    ANSWERS(GP_OK, gp_controller_end(&controller));
}

/* The net has a fault, here; it doesn't run. */
static void faulty(uint8_t wanted, uint16_t block, uint16_t connection, uint16_t bit) {
    fill();
    ANSWERS(wanted, gp_controller_start(&controller, &fault));
    MUST(fault.block == block && fault.connection == connection && fault.bit == bit);
    ANSWERS(GP_NOT_RUNNING, gp_controller_tick(&controller));
    ANSWERS(GP_OK, gp_controller_end(&controller));
    opened();
    connected(1);
    block_of(GP_AND, &input);
}

static void bad_nets(void) {
    const gp_wire no_connection = GP_INPUT(2, 3), no_bit = GP_INPUT(1, 16), itself = GP_BLOCK(2);
    const gp_bit no_output = {1, 16};
    opened();
    connected(1);
    ANSWERS(GP_OK, gp_controller_block(&controller, GP_LATCH, 0, &no_bit, 1, &number));
    faulty(GP_ARITY, 1, 0, 0);
    ANSWERS(GP_OK, gp_controller_block(&controller, GP_AND, 0, NULL, 0, &number));
    faulty(GP_ARITY, 2, 0, 0);
    block_of(GP_OR, &itself);
    faulty(GP_LATER, 2, 0, 0);
    block_of(GP_OR, &no_connection);
    faulty(GP_NO_INPUT, 0, 2, 3);
    block_of(GP_OR, &no_bit);
    ANSWERS(GP_OK, gp_controller_drive(&controller, &no_output, &input));
    faulty(GP_NO_INPUT, 0, 1, 16);
    ANSWERS(GP_OK, gp_controller_drive(&controller, &no_output, &no_bit));
    faulty(GP_NO_OUTPUT, 0, 1, 16);
    ANSWERS(GP_OK, gp_controller_drive(&controller, &output_bit, &first_block));
    ANSWERS(GP_OK, gp_controller_drive(&controller, &output_bit, &other_block));
    faulty(GP_TWICE, 0, 1, 15);
    ANSWERS(GP_OK, gp_controller_drive(&controller, &output_bit, &other_block));
    faulty(GP_LATER, 0, 0, 0);
    ANSWERS(GP_OK, gp_controller_end(&controller));
}

static uint8_t call_that_allocates(int which) {
    const gp_wire eight[GP_MOST_INPUTS] = {GP_INPUT(1, 0)};
    fill();
    tried++;
    if (which == 0) return gp_controller_connect(&controller, &good, data, 0, &number);
    if (which == 1) return gp_controller_block(&controller, GP_AND, 0, eight, GP_MOST_INPUTS, &number);
    return gp_controller_drive(&controller, &output_bit, &input);
}

/* GP_REGION_UNITS is enough, also where each block has all inputs. */
static void region_that_is_enough(void) {
    static const gp_most sizes[] = {{1, 0, 0}, {1, 1, 1}, {1, 2, 7}, {3, 17, 100}, {64, 256, 1024}};
    gp_wire inputs[GP_MOST_INPUTS];
    for (size_t i = 0; i < GP_MOST_INPUTS; i++) inputs[i] = (gp_wire)GP_INPUT(1, 0);
    for (size_t i = 0; i < sizeof sizes / sizeof *sizes; i++) {
        const gp_most *room = &sizes[i];
        size_t units = GP_REGION_UNITS(room->connections, room->blocks, room->drives);
        ANSWERS(GP_OK, gp_controller_open(&controller, region, units * sizeof *region, room));
        for (uint16_t k = 1; k <= room->connections; k++) connected(k);
        for (uint16_t k = 0; k < room->blocks; k++)
            ANSWERS(GP_OK, gp_controller_block(&controller, GP_OR, 0, inputs, GP_MOST_INPUTS, &number));
        for (uint16_t k = 0; k < room->drives; k++) {
            gp_bit output = {(uint16_t)(k % room->connections + 1), (uint16_t)(k / room->connections)};
            ANSWERS(GP_OK, gp_controller_drive(&controller, &output, inputs));
        }
        ANSWERS(GP_OK, gp_controller_end(&controller));
    }
}

/* While the region has no room a call is refused, and nothing is changed. Each is tried over regions of all sizes up to
   the first that is enough. */
static void no_memory(void) {
    for (int which = 0; which < 3; which++) {
        uint8_t answer = GP_NO_MEMORY;
        for (size_t units = 0; answer == GP_NO_MEMORY; units++) {
            answer = gp_controller_open(&controller, region, units * sizeof *region, &most);
            tried++;
            if (answer != GP_OK) continue;
            answer = call_that_allocates(which);
            MUST(answer == GP_OK ? which == 2 || number == 1 : answer == GP_NO_MEMORY && nothing_was_written());
            ANSWERS(GP_OK, gp_controller_end(&controller));
        }
    }
}

/* A start closes the region: a controller whose memory is made what it was before gets nothing more from there. On 32
   bits the controller itself lies in the region, so it still runs. */
static void closed_region(void) {
    static const gp_most nothing = {0, 0, 0};
    const uint8_t wanted = sizeof(size_t) == 8 ? GP_NO_MEMORY : GP_RUNNING;
    ANSWERS(GP_OK, gp_controller_open(&controller, region, sizeof region, &nothing));
    before = memory;
    ANSWERS(GP_OK, gp_controller_start(&controller, &fault));
    memory = before;
    for (int which = 0; which < 3; which++)
        MUST(call_that_allocates(which) == wanted && nothing_was_written());
    ANSWERS(GP_OK, gp_controller_end(&controller));
}

/* One connection, whose output bit 15 is its input bit 0 unless a block says no. */
static void started(void) {
    opened();
    connected(1);
    block_of(GP_AND, &input);
    ANSWERS(GP_OK, gp_controller_block(&controller, GP_CONST1, 0, NULL, 0, &number));
    ANSWERS(GP_OK, gp_controller_drive(&controller, &output_bit, &first_block));
    ANSWERS(GP_OK, gp_controller_start(&controller, &fault));
}

static void ended(void) {
    ANSWERS(GP_OK, gp_controller_end(&controller));
}

static void while_it_runs(void) {
    const gp_bit second = {1, 1}, nowhere = {2, 0}, past = {1, 16};
    started();
    fill();
    before = memory;
    ANSWERS(GP_BUSY, gp_controller_open(&controller, region, 0, &all));
    all_making(GP_RUNNING);
    for (unsigned connection = 0; connection <= 65535; connection += connection == 0 ? 2 : 65533) {
        all_steps(GP_NO_CONNECTION, (uint16_t)connection);
        all_readers(GP_NO_CONNECTION, (uint16_t)connection);
    }
    ANSWERS(GP_BAD_NONCE, gp_controller_nonce(&controller, 1, 65536));
    ANSWERS(GP_BAD_LENGTH, gp_controller_inputs(&controller, 1, data, LEN + 1));
    ANSWERS(GP_BAD_LENGTH, gp_controller_offer(&controller, 1, data, 0));
    ANSWERS(GP_NOT_IN_DATA, gp_controller_terms(&controller, 1, &terms));
    ANSWERS(GP_NO_CONNECTION, gp_controller_guards(&controller, &nowhere, &input_bit, &flag));
    ANSWERS(GP_NO_CONNECTION, gp_controller_guards(&controller, &past, &nowhere, &flag));
    ANSWERS(GP_NO_OUTPUT, gp_controller_guards(&controller, &past, &past, &flag));
    ANSWERS(GP_NO_INPUT, gp_controller_guards(&controller, &output_bit, &past, &flag));
    ANSWERS(GP_NO_BLOCK, gp_controller_value(&controller, 0, &flag));
    ANSWERS(GP_NO_BLOCK, gp_controller_value(&controller, 3, &flag));
    MUST(nothing_was_written() && memcmp(&before, &memory, sizeof memory) == 0);
    ANSWERS(GP_OK, gp_controller_value(&controller, 1, &flag));
    MUST(flag == 0);
    ANSWERS(GP_OK, gp_controller_value(&controller, 2, &flag));
    MUST(flag == 1);
    ANSWERS(GP_OK, gp_controller_guards(&controller, &output_bit, &input_bit, &flag));
    MUST(flag == 1);
    ANSWERS(GP_OK, gp_controller_guards(&controller, &output_bit, &second, &flag));
    MUST(flag == 0);
    ANSWERS(GP_OK, gp_controller_guards(&controller, &second, &input_bit, &flag));
    MUST(flag == 1); /* no drive sets it */
    ended();
}

/* Frames go to and fro so often. */
static void exchanges(unsigned count) {
    for (unsigned i = 0; i < count; i++) {
        ANSWERS(GP_OK, gp_slave_deliver(&slave, frame.bytes, frame.len, &out, &did));
        ANSWERS(GP_OK, gp_controller_deliver(&controller, 1, out.bytes, out.len, &frame, &did));
    }
}

static bool slave_has(uint8_t wanted) {
    uint8_t outputs[LEN] = {0};
    ANSWERS(GP_OK, gp_slave_outputs(&slave, outputs, LEN));
    return outputs[0] == 0 && outputs[1] == wanted;
}

/* From the first tick to data, where the slave's bit 0 is on. */
static void comes_to_data(void) {
    const gp_slave_settings ss = {.master_len = LEN,
                                  .slave_len = LEN,
                                  .address = 2,
                                  .hand = WATCHDOG,
                                  .most = WATCHDOG,
                                  .profile = 1,
                                  .nonce = 2};
    const uint8_t on[LEN] = {1, 0};
    started();
    ANSWERS(GP_OK, gp_slave_init(&slave, &ss, 0));
    ANSWERS(GP_OK, gp_slave_put(&slave, on, LEN));
    fill();
    ANSWERS(GP_OK, gp_controller_ticked(&controller, 1, &out, &did));
    MUST(out.len == 0 && did.sent == 0 && did.took == 0 && did.reset == GP_NO_RESET);
    MUST(is_untouched(out.bytes, sizeof out.bytes));
    ANSWERS(GP_OK, gp_controller_age(&controller, 1, &number));
    MUST(number == WATCHDOG - 1);
    ANSWERS(GP_OK, gp_controller_tick(&controller));
    ANSWERS(GP_OK, gp_controller_ticked(&controller, 1, &frame, &did));
    MUST(frame.len == 7 && frame.bytes[0] == GP_COMMAND_RESET && did.sent == 1);
    ANSWERS(GP_OK, gp_controller_nonce(&controller, 1, 0x1234));
    ANSWERS(GP_OK, gp_slave_deliver(&slave, frame.bytes, frame.len, &out, &did));
    ANSWERS(GP_OK, gp_controller_deliver(&controller, 1, out.bytes, out.len, &frame, &did));
    MUST(frame.bytes[0] == GP_COMMAND_SESSION && frame.bytes[1] == 0x34);
    exchanges(9);
    ANSWERS(GP_OK, gp_controller_terms(&controller, 1, &terms));
    MUST(terms.conn == 1 && terms.address == 2 && terms.watchdog == WATCHDOG && terms.app_len == 0);
    MUST(did.took == GP_COMMAND_PROCESS_DATA && did.load_len == LEN && did.load[0] == 1);
}

static void steps(void) {
    uint8_t offer[LEN] = {0};
    comes_to_data();
    ANSWERS(GP_OK, gp_controller_offer(&controller, 1, offer, LEN));
    MUST(offer[0] == 0 && offer[1] == 0x80);
    exchanges(1);
    MUST(slave_has(0x80));
    ANSWERS(GP_OK, gp_controller_hold(&controller, 1, true));
    ANSWERS(GP_OK, gp_controller_held(&controller, 1, &flag));
    MUST(flag == 1);
    exchanges(2);
    MUST(slave_has(0));
    ANSWERS(GP_OK, gp_controller_hold(&controller, 1, false));
    exchanges(2);
    MUST(slave_has(0x80));
    ANSWERS(GP_OK, gp_controller_reset(&controller, 1, &frame, &did));
    MUST(did.reset == GP_BY_CALL && did.code == GP_CODE_LOCAL_RESET && did.sent == 1);
    MUST(frame.bytes[0] == GP_COMMAND_RESET);
    ANSWERS(GP_OK, gp_controller_changed(&controller, 1, &flag));
    ANSWERS(GP_OK, gp_controller_offer(&controller, 1, offer, LEN));
    MUST(flag == 1 && offer[1] == 0);
    ANSWERS(GP_OK, gp_slave_deliver(&slave, frame.bytes, frame.len, &out, &did));
    MUST(slave_has(0) && did.reset == GP_BY_PEER);
    ANSWERS(GP_OK, gp_slave_end(&slave));
    ended();
}

int main(void) {
    MUST(gp_controller_build(data, GP_BUILD_LENGTH) == GP_OK && data[GP_BUILD_LENGTH - 1] == '\n');
    MUST(gp_controller_version() == GP_CONTROLLER_VERSION && gp_controller_size() == GP_CONTROLLER_SIZE);
    MUST(gp_controller_align() == _Alignof(gp_controller_memory));
    no_controller();
    before_start();
    bad_connections();
    too_many();
    bad_nets();
    region_that_is_enough();
    no_memory();
    closed_region();
    while_it_runs();
    steps();
    printf("%u answers as they are to be\n", tried);
    return 0;
}
