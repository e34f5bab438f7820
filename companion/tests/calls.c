/* Stands for the controller's calls: each writes what it was given. The one whose number is the word is refused. */
#include <gatepast_controller.h>
#include <stdio.h>
#include <stdlib.h>

uint8_t plant_make(gp_controller *controller, gp_unit *region, size_t size, gp_fault *fault);

enum { REFUSED = 77 };
static gp_controller the_controller;
static gp_unit the_region[4];
static gp_fault the_fault;
static long calls, refused;

static uint8_t answer(const gp_controller *controller) {
    puts("");
    if (controller != &the_controller) exit(1);
    return ++calls == refused ? REFUSED : GP_OK;
}

static void wire(const gp_wire *given) {
    if (given->connection == 0) {
        printf(" b%u", given->number);
    } else {
        printf(" i%u.%u", given->connection, given->number);
    }
}

uint8_t gp_controller_open(gp_controller *controller, gp_unit *memory, size_t size, const gp_most *most) {
    printf("open %u %u %u", most->connections, most->blocks, most->drives);
    if (memory != the_region || size != sizeof the_region) exit(1);
    return answer(controller);
}

uint8_t gp_controller_connect(gp_controller *controller, const gp_master_settings *set, const uint8_t *app,
                              size_t app_len, uint16_t *connection) {
    printf("connect %u %u %u %u ", set->master_len, set->slave_len, set->conn, set->address);
    printf("%u %u %u %u app ", set->watchdog, set->profile, set->nonce, set->word);
    if (app == NULL) exit(1);
    for (size_t at = 0; at < app_len; at++) printf("%02x", app[at]);
    *connection = 1;
    return answer(controller);
}

uint8_t gp_controller_block(gp_controller *controller, uint8_t kind, uint16_t n, const gp_wire *inputs,
                            size_t inputs_len, uint16_t *block) {
    printf("block %u %u", kind, n);
    for (size_t at = 0; at < inputs_len; at++) wire(&inputs[at]);
    *block = 1;
    return answer(controller);
}

uint8_t gp_controller_drive(gp_controller *controller, const gp_bit *output, const gp_wire *from) {
    printf("drive o%u.%u", output->connection, output->bit);
    wire(from);
    return answer(controller);
}

uint8_t gp_controller_start(gp_controller *controller, gp_fault *fault) {
    printf("start");
    if (fault != &the_fault) exit(1);
    return answer(controller);
}

int main(int count, char **words) {
    refused = count > 1 ? atol(words[1]) : 0;
    return plant_make(&the_controller, the_region, sizeof the_region, &the_fault);
}
