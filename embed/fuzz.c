/*
 * The calls of gatepast.h over bytes that libFuzzer chooses, for embed/fuzz. The bytes are settings of both ends and a
 * list of calls. What a call is given ends where a page ends that nobody may touch, so an access behind it is a crash.
 * The archive isn't instrumented: libFuzzer is told how often each state, answer, command, code and reason came, and
 * keeps what brings new ones.
 */
#include <gatepast.h>
#include <stdio.h>
#include <stdlib.h>
#include <string.h>
#include <sys/mman.h>

/* What is counted: answers of steps, commands with codes, causes and reasons, answers of inits and of two other calls. */
enum {
    OF_STEPS = 0,
    OF_COMMANDS = 128,
    OF_CAUSES = 2304,
    OF_INITS = 2432,
    OF_NONCES = 2560,
    OF_TERMS = 2688,
    OF_ALL = 2816
};
enum { MASTER, SLAVE, PAGE = 4096, BEHIND = 0xA5 };

__attribute__((section("__libfuzzer_extra_counters"))) static uint8_t seen[2][5][OF_ALL];

static const uint8_t *input;
static size_t input_len;

static gp_slave *slave;
static gp_master *master;
static gp_frame *out;
static gp_did *did;
static gp_terms *terms;
static uint8_t *place_of_app, *place_of_frame, *place_of_data;
static gp_frame sent[2];
static uint16_t lens[2], most_watchdog;
static unsigned silent; /* ticks of the slave since it took a frame */

static void must(bool holds, const char *what) {
    if (holds) return;
    fprintf(stderr, "fuzz: wrong: %s\n", what);
    abort();
}

/* Room whose end is the end of a page, before one that nobody may touch. */
static void *guarded(size_t size) {
    uint8_t *pages = mmap(NULL, 2 * PAGE, PROT_READ | PROT_WRITE, MAP_PRIVATE | MAP_ANONYMOUS, -1, 0);
    if (pages == MAP_FAILED || mprotect(pages + PAGE, PAGE, PROT_NONE) != 0) abort();
    return pages + PAGE - size;
}

static uint8_t byte(void) {
    if (input_len == 0) return 0;
    input_len--;
    return *input++;
}

static uint16_t number(void) {
    const uint8_t low = byte();
    return (uint16_t)(low | byte() << 8);
}

/* As many bytes of the input as there are, and zeros, before the end of a place. */
static uint8_t *bytes_before(uint8_t *end, size_t len) {
    for (size_t i = 0; i < len; i++) end[i - len] = byte();
    return end - len;
}

static void note(int end, unsigned state, unsigned what) {
    uint8_t *counter = &seen[end][state][what];
    if (*counter < UINT8_MAX) (*counter)++;
}

static uint8_t state_of(int end) {
    uint8_t state = GP_RESET;
    const uint8_t answer = end == SLAVE ? gp_slave_state(slave, &state) : gp_master_state(master, &state);
    must(answer == GP_OK || answer == GP_NO_END, "the answer of a state");
    must(state <= GP_DATA, "a state");
    return state;
}

/* Outputs are zeros outside Data, and when the watchdog expired. */
static void outputs_are_right(void) {
    uint8_t any = 0;
    memset(place_of_data - GP_MOST_DATA, 0, GP_MOST_DATA);
    uint8_t *outputs = place_of_data - lens[MASTER];
    if (gp_slave_outputs(slave, outputs, lens[MASTER]) != GP_OK) return;
    for (size_t i = 0; i < lens[MASTER]; i++) any |= outputs[i];
    must(any == 0 || (state_of(SLAVE) == GP_DATA && silent < most_watchdog), "outputs that are to be zeros");
}

/* The frame is sent, and the last byte behind a shorter one is marked. */
static void keep(int end) {
    if (out->len != 0) sent[end] = *out;
    out->bytes[GP_MOST_FRAME - 1] = BEHIND;
}

/* After a step: what it tells is in its ranges, and nothing was written behind the lengths. */
static void stepped(int end, uint8_t answer) {
    note(end, state_of(end), OF_STEPS + answer % 128u);
    if (answer != GP_OK) return;
    must(out->len == 0 || out->len == 2u * lens[end] + (lens[end] == 1 ? 4 : 3), "the length of a frame");
    must(out->bytes[GP_MOST_FRAME - 1] == BEHIND || out->len == GP_MOST_FRAME, "a byte behind a frame");
    must(did->load_len <= lens[1 - end], "the length of a load");
    must((did->took != 0) + (did->reset != 0) + (did->dropped != 0) <= 1, "two things at once");
    note(end, state_of(end), OF_COMMANDS + did->took % 128u + 128u * (did->code % 16u));
    note(end, state_of(end), OF_CAUSES + did->dropped % 4u + 4u * (did->reset % 4u));
    keep(end);
    if (end == SLAVE && did->took != 0) silent = 0;
    outputs_are_right();
}

static void deliver(int to, uint8_t how, size_t len) {
    const uint8_t *frame = place_of_frame - len;
    if (to == SLAVE) {
        stepped(SLAVE, gp_slave_deliver(slave, frame, len, out, did));
    } else if (how % 2 == 0) {
        stepped(MASTER, gp_master_deliver(master, frame, len, out, did));
    } else {
        out->len = 0;
        stepped(MASTER, gp_master_accept(master, frame, len, did));
        if (how % 4 == 3 && gp_master_reply(master, out) == GP_OK) keep(MASTER);
    }
}

static void deliver_sent(int to, uint8_t how) {
    const gp_frame *frame = &sent[1 - to];
    memcpy(place_of_frame - frame->len, frame->bytes, frame->len);
    deliver(to, how, frame->len);
}

static void tick(int at) {
    if (at == SLAVE) silent++;
    stepped(at, at == SLAVE ? gp_slave_tick(slave, out, did) : gp_master_tick(master, out, did));
}

static void reset(int at) {
    stepped(at, at == SLAVE ? gp_slave_reset(slave, out, did) : gp_master_reset(master, out, did));
}

static void put(int at, size_t len) {
    const uint8_t *load = bytes_before(place_of_data, len);
    const uint8_t answer = at == SLAVE ? gp_slave_put(slave, load, len) : gp_master_put(master, load, len);
    must(answer == (len == lens[at] ? GP_OK : GP_BAD_LENGTH) || answer == GP_NO_END, "the answer of a put");
}

/* Ends what was there, and makes both ends anew. */
static void begin(void) {
    const uint8_t kind = byte();
    lens[MASTER] = byte();
    lens[SLAVE] = kind & 1 ? byte() : lens[MASTER];
    const uint16_t app_len = kind & 2 ? number() : kind % 16;
    const size_t there = app_len < GP_MOST_APP ? app_len : GP_MOST_APP;
    gp_slave_settings ss = {.master_len = lens[MASTER],
                            .slave_len = lens[SLAVE],
                            .address = 2,
                            .hand = 200,
                            .most = 50,
                            .profile = 1 + (kind >> 4) % 2,
                            .nonce = number(),
                            .word = 5};
    gp_master_settings ms = {.master_len = lens[MASTER],
                             .slave_len = lens[SLAVE],
                             .conn = 1,
                             .address = 2,
                             .watchdog = 40,
                             .profile = 1 + (kind >> 4) % 2,
                             .nonce = number(),
                             .word = 5};
    if (kind & 128) ss.most = number(), ms.watchdog = number(), ms.address = byte(), ss.nonce = number() * 3u;
    uint8_t *app = bytes_before(place_of_app, there);
    most_watchdog = ss.most;
    silent = 0;
    gp_slave_end(slave);
    gp_master_end(master);
    memset(sent, 0, sizeof sent);
    memset(out, BEHIND, sizeof *out);
    out->len = 0;
    uint8_t answer = kind & 4   ? gp_slave_init(slave, &ss, app_len)
                     : kind & 8 ? gp_slave_init_exact(slave, &ss, app, there)
                                : gp_slave_init_ranges(slave, &ss, app, there, app, there);
    note(SLAVE, GP_RESET, OF_INITS + answer % 128u);
    /* the master's parameters: the slave's, others, or fewer */
    if (kind & 32 && there != 0) app[0] ^= 1;
    answer = gp_master_init(master, &ms, app, kind & 64 && there != 0 ? there - 1 : there);
    note(MASTER, GP_RESET, OF_INITS + answer % 128u);
    if (answer == GP_OK) tick(MASTER);
}

static void set_nonce(int at) {
    const uint32_t id = number() * 2u;
    note(at, state_of(at), OF_NONCES + (at == SLAVE ? gp_slave_nonce(slave, id) : gp_master_nonce(master, id)) % 128u);
}

static void read_terms(int at) {
    note(at, state_of(at),
         OF_TERMS + (at == SLAVE ? gp_slave_terms(slave, terms) : gp_master_terms(master, terms)) % 128u);
}

static void do_call(uint8_t word) {
    const int at = word & 16 ? MASTER : SLAVE;
    switch (word % 16) {
    case 8:
        tick(at);
        return;
    case 9:
        for (int i = byte(); i > 0; i--) tick(at);
        return;
    case 10:
        memcpy(place_of_frame - sent[1 - at].len, sent[1 - at].bytes, sent[1 - at].len);
        if (sent[1 - at].len != 0) place_of_frame[-1 - (int)(byte() % sent[1 - at].len)] ^= byte();
        deliver(at, word >> 5, sent[1 - at].len);
        return;
    case 11: {
        const size_t len = byte();
        bytes_before(place_of_frame, len);
        deliver(at, word >> 5, len);
        return;
    }
    case 12:
        put(at, word & 32 ? byte() : lens[at]);
        return;
    case 13:
        must((at == SLAVE ? gp_slave_hold(slave, word & 32) : gp_master_hold(master, word & 32)) <= GP_NO_END,
             "a hold");
        return;
    case 14:
        if (word & 32) reset(at);
        else set_nonce(at);
        return;
    case 15:
        if (word & 32) begin();
        else read_terms(at);
        return;
    default:
        deliver_sent(at, word >> 5);
        return;
    }
}

int LLVMFuzzerInitialize(int *count, char ***words) {
    (void)count, (void)words;
    static gp_slave of_slave;
    static gp_master of_master;
    of_slave = (gp_slave)GP_SLAVE_IN(guarded(sizeof(gp_slave_memory)));
    of_master = (gp_master)GP_MASTER_IN(guarded(sizeof(gp_master_memory)));
    slave = &of_slave;
    master = &of_master;
    out = guarded(sizeof *out);
    did = guarded(sizeof *did);
    terms = guarded(sizeof *terms);
    place_of_frame = guarded(0);
    place_of_data = guarded(0);
    place_of_app = guarded(0);
    return 0;
}

int LLVMFuzzerTestOneInput(const uint8_t *bytes, size_t len) {
    input = bytes;
    input_len = len;
    begin();
    while (input_len != 0) do_call(byte());
    return 0;
}
