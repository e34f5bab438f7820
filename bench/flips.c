/*
 * Turns each bit of an end in state Data and of the tables of the CRC, or every STRIDE-th, and counts what comes of it:
 * flips STRIDE
 * Each is turned in processes of its own, at a slave and at a master, at one end alone and at the same one as a channel
 * of twice.h. The end takes the frames that a sound one took, with other data in each, and then nothing until the
 * watchdog expired. What left is compared with what left of the sound one. A frame that is another one goes to a sound
 * peer, by the other archive. Status 1: something wrong left two channels, or a turned bit in a table wasn't found by
 * table_test.h.
 */
#define TABLE_TEST_CHANNELS 2
#include "../embed/examples/table_test.h"
#include "../embed/examples/twice.h"

#include <stdio.h>
#include <stdlib.h>
#include <sys/mman.h>
#include <sys/time.h>
#include <sys/wait.h>
#include <unistd.h>

enum {
    LEN = 2,
    WATCHDOG = 100,
    BEFORE = 20,
    EXCHANGES = 12,
    SILENT_TICKS = 130,
    ROUNDS = BEFORE + EXCHANGES + SILENT_TICKS
};
enum { MOST_MICROSECONDS = 200000 }; /* of processor time: far more than all rounds take */
enum { SLAVE, MASTER };
enum { FIRST, SECOND, TWO_CHANNELS };

/* What came of a bit: the worst of these. */
enum effect {
    NONE,
    FRAME_DIFFERS,
    STOPPED,
    ZEROS_EARLY,
    CALL_REFUSED,
    CRASH_OR_HANG,
    WRONG_AT_PEER,
    ON_TOO_LONG,
    WRONG_DATA,
    EFFECTS
};

static const char *const names[EFFECTS] = {
    "no effect seen",
    "another frame or none, and no wrong data at the peer",
    "",
    "outputs are zeros too early",
    "a call is refused",
    "crash or hang",
    "another frame, and wrong data at the peer",
    "outputs go on past the watchdog",
    "wrong outputs",
};

/* What a sound end did in each round: what it put, the frame that came, or none at a tick, and what left. */
typedef struct round_of {
    gp_frame came, left;
    uint8_t put[LEN], outputs[LEN];
} round_of;

static round_of (*rounds)[2]; /* nobody writes to them after they were made */

/* In memory that both processes have, so that it outlasts a crash. */
static struct {
    enum effect worst;
    bool missed; /* the test of the tables didn't find a turned bit */
} * shared_result;

/* An end: a slave or a master, of the first archive, of the second, or with two channels. */
typedef struct actor {
    int end, kind;
    void *handle;
} actor;

#define CALL(call, ...)                                        \
    switch (2 * at->kind + at->end) {                          \
    case 2 * FIRST + SLAVE:                                    \
        return gp_slave_##call(at->handle, __VA_ARGS__);       \
    case 2 * FIRST + MASTER:                                   \
        return gp_master_##call(at->handle, __VA_ARGS__);      \
    case 2 * SECOND + SLAVE:                                   \
        return twin_gp_slave_##call(at->handle, __VA_ARGS__);  \
    case 2 * SECOND + MASTER:                                  \
        return twin_gp_master_##call(at->handle, __VA_ARGS__); \
    case 2 * TWO_CHANNELS + SLAVE:                             \
        return twice_slave_##call(at->handle, __VA_ARGS__);    \
    default:                                                   \
        return twice_master_##call(at->handle, __VA_ARGS__);   \
    }

static uint8_t put(const actor *at, const uint8_t load[LEN]) {
    CALL(put, load, LEN)
}

static uint8_t deliver(const actor *at, const gp_frame *frame, gp_frame *out, gp_did *did) {
    CALL(deliver, frame->bytes, frame->len, out, did)
}

static uint8_t tick(const actor *at, gp_frame *out, gp_did *did) {
    CALL(tick, out, did)
}

static uint8_t read_outputs(const actor *at, uint8_t outputs[LEN]) {
    CALL(outputs, outputs, LEN)
}

static void note(enum effect effect) {
    if (effect > shared_result->worst) shared_result->worst = effect;
}

static void must(bool holds) {
    if (!holds) abort();
}

/* A step: the frame that comes, or a tick. */
static uint8_t step(const actor *at, const gp_frame *came, gp_frame *out, gp_did *did) {
    return came->len != 0 ? deliver(at, came, out, did) : tick(at, out, did);
}

static bool is_off(const uint8_t outputs[LEN]) {
    static const uint8_t zeros[LEN];
    return memcmp(outputs, zeros, LEN) == 0;
}

static bool equal_frames(const gp_frame *one, const gp_frame *other) {
    return one->len == other->len && memcmp(one->bytes, other->bytes, one->len) == 0;
}

/* Gives a frame that isn't the sound one to the peer. Its data there have to be those that were put, or zeros. */
static void judge_frame(const actor *peer, const gp_frame *frame, const uint8_t data[LEN]) {
    static gp_frame out;
    static gp_did did;
    uint8_t taken[LEN] = {0};
    const bool came = frame->len != 0 && frame->len <= GP_MOST_FRAME;
    if (came) must(deliver(peer, frame, &out, &did) == GP_OK && read_outputs(peer, taken) == GP_OK);
    note(did.took == 0 || is_off(taken) || memcmp(taken, data, LEN) == 0 ? FRAME_DIFFERS : WRONG_AT_PEER);
}

static void judge_outputs(const uint8_t sound[LEN], const uint8_t outputs[LEN]) {
    if (memcmp(outputs, sound, LEN) != 0)
        note(is_off(outputs) ? ZEROS_EARLY : is_off(sound) ? ON_TOO_LONG : WRONG_DATA);
}

/* A round of the end and its peer. True while both were sound. */
static bool go_on(const actor *at, const actor *peer, int i, bool sound) {
    static gp_frame out;
    static gp_did did;
    static uint8_t outputs[LEN];
    const round_of *now = &rounds[i][at->end];
    const uint8_t answer = step(at, &now->came, &out, &did), read = read_outputs(at, outputs);
    if (at->kind == TWO_CHANNELS && read == TWICE_STOPPED) {
        const bool right = answer == TWICE_STOPPED ? out.len == 0 : equal_frames(&out, &now->left);
        note(right && is_off(outputs) ? STOPPED : WRONG_DATA);
        return false;
    }
    if (answer != GP_OK || read != GP_OK) {
        note(CALL_REFUSED);
        _exit(1);
    }
    judge_outputs(now->outputs, outputs);
    if (sound && !equal_frames(&out, &now->left)) {
        judge_frame(peer, &out, now->put);
        return false;
    }
    const int next = at->end == SLAVE ? i : i + 1; /* a master's frame comes to the slave in the next round */
    if (!sound || next == ROUNDS) return sound;
    must(put(peer, rounds[next][peer->end].put) == GP_OK);
    must(step(peer, &rounds[next][peer->end].came, &out, &did) == GP_OK);
    return true;
}

/* Bytes whose bits are turned. */
typedef struct region {
    uint8_t *bytes;
    size_t len;
    uint8_t fault; /* of a table: what table_test.h says of it */
} region;

static void make_writable(const region *at) {
    const uintptr_t page = (uintptr_t)sysconf(_SC_PAGESIZE), begin = (uintptr_t)at->bytes / page * page;
    must(mprotect((void *)begin, (uintptr_t)at->bytes + at->len - begin, PROT_READ | PROT_WRITE | PROT_EXEC) == 0);
}

/* The test of the tables finds the turned bit, at its place. */
static void test_tables(const region *at, size_t byte) {
    table_test test = {0};
    uint8_t answer = TABLE_TEST_GOES_ON;
    while (answer == TABLE_TEST_GOES_ON) answer = table_test_part(&test, 300);
    if (answer == at->fault && test.place % TABLE_BYTES == byte) return;
    printf("the test of the tables answers %d at %d\n", answer, test.place);
    fflush(stdout);
    shared_result->missed = true;
}

/* What comes of one bit, found by a process of its own. */
static enum effect effect_of(const region *where, size_t bit, const actor *at, const actor *peer) {
    shared_result->worst = NONE;
    const pid_t child = fork();
    must(child >= 0);
    if (child == 0) {
        bool sound = true;
        setitimer(ITIMER_VIRTUAL, &(struct itimerval){.it_value.tv_usec = MOST_MICROSECONDS}, NULL);
        must(put(at, rounds[BEFORE][at->end].put) == GP_OK);
        if (where->fault != 0) make_writable(where);
        where->bytes[bit / 8] ^= (uint8_t)(1u << (bit % 8));
        if (where->fault != 0) test_tables(where, bit / 8);
        sound = go_on(at, peer, BEFORE, sound);
        for (int i = BEFORE + 1; i < ROUNDS; i++) {
            const uint8_t answer = put(at, rounds[i][at->end].put);
            if (answer != GP_OK && answer != TWICE_STOPPED) note(CALL_REFUSED);
            sound = go_on(at, peer, i, sound);
        }
        _exit(0);
    }
    int status;
    must(waitpid(child, &status, 0) == child);
    if (!WIFEXITED(status)) note(CRASH_OR_HANG);
    return shared_result->worst;
}

static void *shared(size_t bytes) {
    void *at = mmap(NULL, bytes, PROT_READ | PROT_WRITE, MAP_SHARED | MAP_ANONYMOUS, -1, 0);
    must(at != MAP_FAILED);
    return at;
}

static const gp_slave_settings of_slave = {
    .master_len = LEN, .slave_len = LEN, .address = 2, .hand = 200, .most = 1000, .profile = 1, .nonce = 2};
static const gp_master_settings of_master = {
    .master_len = LEN, .slave_len = LEN, .conn = 1, .address = 2, .watchdog = WATCHDOG, .profile = 1, .nonce = 1};
static const uint8_t no_app[1];

/* A slave and a master by the first archive, which are sound, and what they do. */
static void make_rounds(void) {
    static gp_slave_memory slave_memory;
    static gp_master_memory master_memory;
    static gp_slave slave = GP_SLAVE_IN(&slave_memory);
    static gp_master master = GP_MASTER_IN(&master_memory);
    static gp_frame next;
    static gp_did did;
    const actor ends[2] = {{SLAVE, FIRST, &slave}, {MASTER, FIRST, &master}};
    rounds = shared(ROUNDS * sizeof *rounds);
    must(gp_slave_init(&slave, &of_slave, 0) == GP_OK && gp_master_init(&master, &of_master, no_app, 0) == GP_OK);
    must(gp_master_tick(&master, &next, &did) == GP_OK);
    for (int i = 0; i < ROUNDS; i++) {
        const bool silent = i >= BEFORE + EXCHANGES;
        for (int end = SLAVE; end <= MASTER; end++) {
            round_of *now = &rounds[i][end];
            now->put[0] = (uint8_t)(i < BEFORE ? 0xFF : i - BEFORE + 1 + 64 * end);
            now->put[1] = 0x80;
            if (!silent) now->came = next;
            must(put(&ends[end], now->put) == GP_OK && step(&ends[end], &now->came, &now->left, &did) == GP_OK);
            must(read_outputs(&ends[end], now->outputs) == GP_OK);
            next = now->left;
        }
    }
    must(mprotect(rounds, ROUNDS * sizeof *rounds, PROT_READ) == 0);
}

/* An end does so many rounds as the sound one did. */
static void follow(const actor *at, int count) {
    static gp_frame out;
    static gp_did did;
    if (at->end == MASTER) must(tick(at, &out, &did) == GP_OK);
    for (int i = 0; i < count; i++) {
        const round_of *now = &rounds[i][at->end];
        must(put(at, now->put) == GP_OK && step(at, &now->came, &out, &did) == GP_OK && equal_frames(&out, &now->left));
    }
}

static gp_slave_memory slave_peer_memories[2];
static gp_master_memory master_peer_memories[2];
static gp_slave slave_peers[2] = {GP_SLAVE_IN(&slave_peer_memories[0]), GP_SLAVE_IN(&slave_peer_memories[1])};
static gp_master master_peers[2] = {GP_MASTER_IN(&master_peer_memories[0]), GP_MASTER_IN(&master_peer_memories[1])};
static twice_slave_memory slave_memory;
static twice_master_memory master_memory;
static twice_slave slave = TWICE_SLAVE_IN(&slave_memory);
static twice_master master = TWICE_MASTER_IN(&master_memory);

/* By the end, and by the archive. A channel of one archive has a peer of the other, since its tables may be wrong. */
static const actor two_channels[2] = {{SLAVE, TWO_CHANNELS, &slave}, {MASTER, TWO_CHANNELS, &master}};
static const actor channels[2][2] = {
    {{SLAVE, FIRST, &slave_memory.first.end}, {SLAVE, SECOND, &slave_memory.second.end}},
    {{MASTER, FIRST, &master_memory.first.end}, {MASTER, SECOND, &master_memory.second.end}}};
static const actor peers[2][2] = {{{MASTER, SECOND, &master_peers[1]}, {MASTER, FIRST, &master_peers[0]}},
                                  {{SLAVE, SECOND, &slave_peers[1]}, {SLAVE, FIRST, &slave_peers[0]}}};

/* The memory of a channel's end with its handle. */
static const region memories[2][2] = {{{(uint8_t *)&slave_memory.first, offsetof(twice_slave_channel, out), 0},
                                       {(uint8_t *)&slave_memory.second, offsetof(twice_slave_channel, out), 0}},
                                      {{(uint8_t *)&master_memory.first, offsetof(twice_master_channel, out), 0},
                                       {(uint8_t *)&master_memory.second, offsetof(twice_master_channel, out), 0}}};

#define PARTS_OF(memory, handle, channel)                                                   \
    {                                                                                       \
        {(uint8_t *)&(memory).first.out, sizeof(channel) - offsetof(channel, out), 0},      \
            {(uint8_t *)&(memory).second.out, sizeof(channel) - offsetof(channel, out), 0}, \
            {(uint8_t *)&(memory).outputs_len, sizeof(memory).outputs_len, 0}, {            \
            (uint8_t *)&(handle), sizeof(handle), 0                                         \
        }                                                                                   \
    }

enum { PARTS_OF_COMPARISON = 4, TABLES_OF_ONE = 4 };

static const region comparisons[2][PARTS_OF_COMPARISON] = {PARTS_OF(slave_memory, slave, twice_slave_channel),
                                                           PARTS_OF(master_memory, master, twice_master_channel)};

static const region tables[2][TABLES_OF_ONE] = {{{(uint8_t *)gp_table_1, TABLE_BYTES, 0x11},
                                                 {(uint8_t *)gp_table_2, TABLE_BYTES, 0x12},
                                                 {(uint8_t *)gp_table_4, TABLE_BYTES, 0x14},
                                                 {(uint8_t *)gp_table_5, TABLE_BYTES, 0x15}},
                                                {{(uint8_t *)twin_gp_table_1, TABLE_BYTES, 0x21},
                                                 {(uint8_t *)twin_gp_table_2, TABLE_BYTES, 0x22},
                                                 {(uint8_t *)twin_gp_table_4, TABLE_BYTES, 0x24},
                                                 {(uint8_t *)twin_gp_table_5, TABLE_BYTES, 0x25}}};

static void begin(void) {
    must(twice_slave_init(&slave, &of_slave, 0) == GP_OK && twice_master_init(&master, &of_master, no_app, 0) == GP_OK);
    must(gp_slave_init(&slave_peers[0], &of_slave, 0) == GP_OK);
    must(twin_gp_slave_init(&slave_peers[1], &of_slave, 0) == GP_OK);
    must(gp_master_init(&master_peers[0], &of_master, no_app, 0) == GP_OK);
    must(twin_gp_master_init(&master_peers[1], &of_master, no_app, 0) == GP_OK);
    for (int i = 0; i < 2; i++) {
        follow(&two_channels[i], BEFORE);
        follow(&peers[SLAVE][i], BEFORE);
        follow(&peers[MASTER][i], BEFORE + 1); /* the slave goes first in a round */
    }
}

/* How many bits had each effect at one end alone, and what came of these bits at two channels. */
typedef struct counts {
    long of[EFFECTS][EFFECTS], bits;
} counts;

static void count(counts *sum, const region *where, int end, int archive, size_t stride) {
    const actor *const peer = &peers[end][archive];
    for (size_t bit = 0; bit < 8 * where->len; bit += stride) {
        const enum effect alone = effect_of(where, bit, &channels[end][archive], peer);
        sum->of[alone][effect_of(where, bit, &two_channels[end], peer)]++;
        sum->bits++;
    }
}

/* Of the bits with an effect at one end: what came of them at two channels. True if nothing wrong left. */
static bool report_row(const long of[EFFECTS], const char *name) {
    static const enum effect columns[] = {NONE, STOPPED, CRASH_OR_HANG};
    long all = 0;
    for (int both = 0; both < EFFECTS; both++) all += of[both];
    if (all == 0) return true;
    printf("%6ld;", all);
    for (size_t i = 0; i < sizeof columns / sizeof *columns; i++) {
        printf(" %6ld", of[columns[i]]);
        all -= of[columns[i]];
    }
    printf(" %6ld %s\n", all, name);
    return all == 0;
}

static const char heads[] = "with two nothing seen, stopped, crashed or hung, something wrong left";
static const char *const ends[2] = {"slave", "master"}, *const places[2] = {"first", "second"};

static bool report(const char *what, int end, int archive, const counts *sum) {
    bool right = true;
    printf("%ld bits of %s of a %s's %s channel: alone; %s\n", sum->bits, what, ends[end], places[archive], heads);
    for (int alone = 0; alone < EFFECTS; alone++) right = report_row(sum->of[alone], names[alone]) && right;
    fflush(stdout);
    return right;
}

static bool count_at(int end, int archive, size_t stride) {
    static counts of_memory, of_tables;
    memset(&of_memory, 0, sizeof of_memory);
    memset(&of_tables, 0, sizeof of_tables);
    count(&of_memory, &memories[end][archive], end, archive, stride);
    for (int i = 0; i < TABLES_OF_ONE; i++) count(&of_tables, &tables[archive][i], end, archive, stride);
    const bool right = report("the memory", end, archive, &of_memory);
    return report("the tables", end, archive, &of_tables) && right;
}

/* The bits of what both channels wrote and of the handle, which no channel alone has. */
static bool count_comparison(int end, size_t stride) {
    long of[EFFECTS] = {0};
    for (int i = 0; i < PARTS_OF_COMPARISON; i++) {
        const region *const where = &comparisons[end][i];
        for (size_t bit = 0; bit < 8 * where->len; bit += stride)
            of[effect_of(where, bit, &two_channels[end], &peers[end][FIRST])]++;
    }
    printf("bits of what compares a %s's channels: all; %s\n", ends[end], heads);
    return report_row(of, "");
}

int main(int count_of_words, char **words) {
    const size_t stride = count_of_words == 2 ? strtoul(words[1], NULL, 10) : 0;
    bool right = true;
    if (stride == 0) return 2;
    shared_result = shared(sizeof *shared_result);
    make_rounds();
    begin();
    for (int end = SLAVE; end <= MASTER; end++) {
        for (int archive = FIRST; archive <= SECOND; archive++) right = count_at(end, archive, stride) && right;
        right = count_comparison(end, stride) && right;
    }
    return right && !shared_result->missed ? 0 : 1;
}
