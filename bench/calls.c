/*
 * Both ends exchange data through C, for bench/embedding to count what the calls execute: calls LENGTH EXCHANGES accept|deliver
 * Before the exchanges that are counted, the ends come to data.
 */
#include <gatepast.h>
#include <stdio.h>
#include <stdlib.h>
#include <string.h>

enum { COMING_UP = 40 };

static gp_slave_memory slave_memory;
static gp_master_memory master_memory;
static gp_slave slave = GP_SLAVE_IN(&slave_memory);
static gp_master master = GP_MASTER_IN(&master_memory);
static gp_frame order, answer, none;
static gp_did did;
static uint8_t data[GP_MOST_DATA], seen[GP_MOST_DATA], state;

static void must(uint8_t answered) {
    if (answered == GP_OK) return;
    fprintf(stderr, "calls: a call answered %d\n", answered);
    exit(1);
}

static void exchange(uint16_t len, bool in_two) {
    data[0]++;
    must(gp_slave_put(&slave, data, len));
    must(gp_slave_deliver(&slave, order.bytes, order.len, &answer, &did));
    must(gp_slave_tick(&slave, &none, &did));
    must(gp_slave_outputs(&slave, seen, len));
    must(gp_slave_state(&slave, &state));
    must(gp_master_put(&master, data, len));
    if (in_two) {
        must(gp_master_accept(&master, answer.bytes, answer.len, &did));
        must(gp_master_reply(&master, &order));
    } else {
        must(gp_master_deliver(&master, answer.bytes, answer.len, &order, &did));
    }
    must(gp_master_tick(&master, &none, &did));
    must(gp_master_outputs(&master, seen, len));
    must(gp_master_state(&master, &state));
}

int main(int count, char **words) {
    if (count != 4) return 2;
    const uint16_t len = (uint16_t)strtoul(words[1], NULL, 10);
    const unsigned long exchanges = COMING_UP + strtoul(words[2], NULL, 10);
    const bool in_two = strcmp(words[3], "accept") == 0;
    const gp_slave_settings ss = {
        .master_len = len, .slave_len = len, .address = 2, .hand = 100, .most = 100, .profile = 1, .nonce = 2};
    const gp_master_settings ms = {
        .master_len = len, .slave_len = len, .conn = 1, .address = 2, .watchdog = 100, .profile = 1, .nonce = 1};
    must(gp_slave_init(&slave, &ss, 0));
    must(gp_master_init(&master, &ms, data, 0));
    must(gp_master_tick(&master, &order, &did));
    for (unsigned long i = 0; i < exchanges; i++) exchange(len, in_two);
    return state == GP_DATA ? 0 : 1;
}
