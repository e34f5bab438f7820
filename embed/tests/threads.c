/* Eight pairs of ends in eight threads, each in memory of its own: the library has no state that they share. */
#include <gatepast.h>
#include <pthread.h>
#include <stdio.h>
#include <stdlib.h>
#include <string.h>

enum { PAIRS = 8, EXCHANGES = 20000, MASTER_LEN = 4, SLAVE_LEN = 2 };

typedef struct pair {
    gp_slave_memory slave;
    gp_master_memory master;
    uint16_t number;
    unsigned taken;
} pair;

static pair pairs[PAIRS];

static void must(bool holds, const char *what) {
    if (holds) return;
    fprintf(stderr, "threads: wrong: %s\n", what);
    exit(1);
}

static void exchange(gp_slave *slave, gp_master *master, gp_frame *frame, uint16_t number, unsigned *taken) {
    gp_frame answer = {0};
    gp_did did = {0};
    uint8_t outputs[MASTER_LEN] = {0};
    for (unsigned i = 0; i < EXCHANGES; i++) {
        const uint8_t order[MASTER_LEN] = {(uint8_t)i, (uint8_t)(i >> 8), (uint8_t)number, 0x5A};
        const uint8_t report[SLAVE_LEN] = {(uint8_t)(3 * i), (uint8_t)number};
        must(gp_master_put(master, order, sizeof order) == GP_OK && gp_slave_put(slave, report, sizeof report) == GP_OK, "a put");
        must(gp_slave_deliver(slave, frame->bytes, frame->len, &answer, &did) == GP_OK, "a frame at the slave");
        must(gp_slave_outputs(slave, outputs, sizeof outputs) == GP_OK, "the outputs");
        must(did.took != GP_COMMAND_PROCESS_DATA || memcmp(outputs, did.load, sizeof outputs) == 0, "outputs that nobody sent");
        must(gp_master_deliver(master, answer.bytes, answer.len, frame, &did) == GP_OK, "a frame at the master");
        if (did.took != GP_COMMAND_PROCESS_DATA) continue;
        must(did.load_len == SLAVE_LEN && memcmp(did.load, report, sizeof report) == 0, "data of another exchange");
        ++*taken;
    }
}

static void *run(void *argument) {
    pair *p = (pair *)argument;
    gp_slave slave = GP_SLAVE_IN(&p->slave);
    gp_master master = GP_MASTER_IN(&p->master);
    const gp_slave_settings ss = {
        .master_len = MASTER_LEN, .slave_len = SLAVE_LEN, .address = p->number, .hand = 200, .most = 1000, .profile = 1, .nonce = 2};
    const gp_master_settings ms = {
        .master_len = MASTER_LEN, .slave_len = SLAVE_LEN, .conn = 1, .address = p->number, .watchdog = 100, .profile = 1, .nonce = 1};
    gp_frame frame = {0};
    gp_did did = {0};
    must(gp_slave_init(&slave, &ss, 0) == GP_OK && gp_master_init(&master, &ms, NULL, 0) == GP_OK, "the settings");
    must(gp_master_tick(&master, &frame, &did) == GP_OK && frame.len != 0, "a first frame");
    exchange(&slave, &master, &frame, p->number, &p->taken);
    must(gp_slave_end(&slave) == GP_OK && gp_master_end(&master) == GP_OK, "the end");
    return NULL;
}

int main(void) {
    pthread_t threads[PAIRS];
    for (uint16_t i = 0; i < PAIRS; i++) {
        pairs[i].number = i;
        must(pthread_create(&threads[i], NULL, run, &pairs[i]) == 0, "a thread");
    }
    for (unsigned i = 0; i < PAIRS; i++) {
        must(pthread_join(threads[i], NULL) == 0, "a join");
        must(pairs[i].taken == pairs[0].taken && pairs[0].taken > EXCHANGES / 2, "as many data in each pair");
    }
    printf("%d pairs in threads: %u frames of data taken by each master\n", PAIRS, pairs[0].taken);
    return 0;
}
