/*
 * plant.h - the machine of a controller in one program: its slaves, and a channel that keeps order. It is driven by a
 * script, and reported, as `fsoe_tool plant` does it over its perfect channel: docs/formats.md, "The script of a plant"
 * and "The report of a plant". A device has a bus and real slaves in its place.
 */
#ifndef GATEPAST_PLANT_H
#define GATEPAST_PLANT_H

#include <gatepast_controller.h>
#include <stdio.h>
#include <stdlib.h>
#include <string.h>

enum { MOST_UNDER_WAY = 1024, MOST_PULLS = 64 };

/* What the controller does at a line of the script. The slaves' lines are done here. */
enum plant_event { PLANT_OVER, PLANT_TICK, PLANT_MASTER_ID };

typedef struct plant_parcel {
    uint16_t connection;
    bool is_for_slave;
    gp_frame frame;
} plant_parcel;

typedef struct plant_slave {
    gp_slave_memory memory;
    gp_slave slave;
    uint16_t master_len, slave_len;
    bool cut; /* what both ends of this connection send is lost */
} plant_slave;

static plant_slave slaves[GP_MOST_CONNECTIONS];
static uint16_t slave_count;
static plant_parcel under_way[MOST_UNDER_WAY];
static size_t oldest, under_way_count;
static gp_frame slave_out;
static gp_did slave_did;

static inline void plant_must(bool holds, const char *what) {
    if (holds) return;
    fprintf(stderr, "plant: wrong: %s\n", what);
    exit(1);
}

static inline plant_slave *slave_of(unsigned connection) {
    plant_must(1 <= connection && connection <= slave_count, "the number of a connection");
    return &slaves[connection - 1];
}

/* Sends a frame, if there is one. When the channel is full, the oldest frame is lost. */
static inline void plant_push(uint16_t connection, bool is_for_slave, const gp_frame *frame) {
    if (frame->len == 0 || slave_of(connection)->cut) return;
    if (under_way_count == MOST_UNDER_WAY) {
        oldest = (oldest + 1) % MOST_UNDER_WAY;
        under_way_count--;
    }
    plant_parcel *place = &under_way[(oldest + under_way_count++) % MOST_UNDER_WAY];
    place->connection = connection;
    place->is_for_slave = is_for_slave;
    place->frame = *frame;
}

/* The oldest frame under way, or NULL. It stays until the next push. */
static inline const plant_parcel *plant_pull(void) {
    if (under_way_count == 0) return NULL;
    const plant_parcel *parcel = &under_way[oldest];
    oldest = (oldest + 1) % MOST_UNDER_WAY;
    under_way_count--;
    return parcel;
}

/* Adds the slave of the next connection. It accepts these application parameters alone, or as many of any values. */
static inline void plant_add_slave(const gp_slave_settings *set, const uint8_t *app, uint16_t app_len, bool exact) {
    plant_slave *s = &slaves[slave_count++];
    s->slave = (gp_slave)GP_SLAVE_IN(&s->memory);
    s->master_len = set->master_len;
    s->slave_len = set->slave_len;
    const uint8_t answer =
        exact ? gp_slave_init_exact(&s->slave, set, app, app_len) : gp_slave_init(&s->slave, set, app_len);
    plant_must(answer == GP_OK, "the settings of a slave");
}

static inline void plant_tick_slaves(void) {
    for (uint16_t k = 1; k <= slave_count; k++) {
        plant_must(gp_slave_tick(&slaves[k - 1].slave, &slave_out, &slave_did) == GP_OK, "a tick at a slave");
        plant_push(k, false, &slave_out);
    }
}

static inline void plant_deliver(uint16_t connection, const gp_frame *frame) {
    const uint8_t answer =
        gp_slave_deliver(&slave_of(connection)->slave, frame->bytes, frame->len, &slave_out, &slave_did);
    plant_must(answer == GP_OK, "a frame at a slave");
    plant_push(connection, false, &slave_out);
}

/* Reads bytes in hexadecimal, and returns how many. */
static inline size_t plant_read_hex(const char *text, uint8_t *bytes, size_t most) {
    size_t len = 0;
    unsigned byte = 0;
    while (len < most && sscanf(text + 2 * len, "%2x", &byte) == 1) bytes[len++] = (uint8_t)byte;
    return len;
}

/* Does a line of the script at its slave, if it is one for a slave. */
static inline uint8_t plant_slave_line(const char *line) {
    static char hex[2 * GP_MOST_DATA + 1];
    static uint8_t load[GP_MOST_DATA];
    unsigned k = 0, number = 0;
    if (sscanf(line, "p %u %252s", &k, hex) == 2)
        return gp_slave_put(&slave_of(k)->slave, load, plant_read_hex(hex, load, sizeof load));
    if (sscanf(line, "h %u %u", &k, &number) == 2) return gp_slave_hold(&slave_of(k)->slave, number != 0);
    if (sscanf(line, "n %u s %u", &k, &number) == 2) return gp_slave_nonce(&slave_of(k)->slave, number);
    if (sscanf(line, "cut %u %u", &k, &number) == 2) return slave_of(k)->cut = number != 0, GP_OK;
    plant_must(sscanf(line, "z %u", &k) == 1, "a line of the script");
    const uint8_t answer = gp_slave_reset(&slave_of(k)->slave, &slave_out, &slave_did);
    plant_push((uint16_t)k, false, &slave_out);
    return answer;
}

/* Reads the script on standard input up to what is the controller's to do, and does what comes before. */
static inline enum plant_event plant_next(unsigned *connection, uint32_t *id) {
    static char line[641];
    while (fgets(line, sizeof line, stdin) != NULL && strcmp(line, "end\n") != 0) {
        if (strcmp(line, "fsoe 1 plant\n") == 0) continue;
        if (strcmp(line, "t\n") == 0) return PLANT_TICK;
        if (sscanf(line, "n %u m %u", connection, id) == 2) return PLANT_MASTER_ID;
        plant_must(plant_slave_line(line) == GP_OK, "a call at a slave");
    }
    return PLANT_OVER;
}

static inline void plant_print(uint8_t state, const uint8_t *data, size_t len) {
    static const char *const names[] = {"Reset", "Session", "Connection", "Parameter", "Data"};
    printf(" %s ", names[state]);
    for (size_t i = 0; i < len; i++) printf("%02x", data[i]);
}

/* Writes the states and the outputs of both ends of each connection. */
static inline void plant_report(gp_controller *controller, unsigned tick) {
    uint8_t state = 0, data[GP_MOST_DATA] = {0};
    printf("tick %u\n", tick);
    for (uint16_t k = 1; k <= slave_count; k++) {
        plant_slave *s = &slaves[k - 1];
        printf("%u", k);
        plant_must(gp_controller_state(controller, k, &state) == GP_OK, "the state of a master");
        plant_must(gp_controller_inputs(controller, k, data, s->slave_len) == GP_OK, "the inputs of a master");
        plant_print(state, data, s->slave_len);
        plant_must(gp_slave_state(&s->slave, &state) == GP_OK, "the state of a slave");
        plant_must(gp_slave_outputs(&s->slave, data, s->master_len) == GP_OK, "the outputs of a slave");
        plant_print(state, data, s->master_len);
        printf("\n");
    }
}

#endif
