/*
 * gatepast_controller.h - a controller: the masters of up to 64 connections, and a net of function blocks that computes
 * what they send from what they received. For C11 and C++11 on, over the ends' header, whose text holds here too.
 *
 *     static gp_controller_memory memory;
 *     static gp_unit region[GP_REGION_UNITS(CONNECTIONS, BLOCKS, DRIVES)];
 *     static gp_controller controller = GP_CONTROLLER_IN(&memory);
 *     static const gp_most most = {CONNECTIONS, BLOCKS, DRIVES};
 *     static gp_frame out, last[CONNECTIONS + 1];
 *     static gp_did did;
 *     static gp_fault fault;
 *
 *     void make(void) {
 *         uint16_t number = 0;
 *         uint8_t guards = 0;
 *         if (gp_controller_version() != GP_CONTROLLER_VERSION) fail();
 *         if (gp_controller_open(&controller, region, sizeof region, &most) != GP_OK) fail();
 *         if (gp_controller_connect(&controller, &settings, app, app_len, &number) != GP_OK) fail();         (each)
 *         if (gp_controller_block(&controller, kind, n, inputs, inputs_len, &number) != GP_OK) fail();       (each)
 *         if (gp_controller_drive(&controller, &output, &from) != GP_OK) fail();                             (each)
 *         if (gp_controller_start(&controller, &fault) != GP_OK) fail();
 *         if (gp_controller_guards(&controller, &output, &stop, &guards) != GP_OK || !guards) fail();        (each)
 *     }
 *
 *     void follow(uint16_t connection) {                    (after each step of a connection)
 *         if (out.len != 0) send(connection, last[connection] = out);
 *         if (did.reset != GP_NO_RESET && gp_controller_nonce(&controller, connection, a fresh id) != GP_OK) fail();
 *     }
 *
 *     make();
 *     for (;;) {
 *         while (a millisecond passed that isn't counted yet) {
 *             if (gp_controller_tick(&controller) != GP_OK) fail();
 *             for (uint16_t c = 1; c <= CONNECTIONS; c++) {
 *                 if (gp_controller_ticked(&controller, c, &out, &did) != GP_OK) fail();
 *                 follow(c);
 *             }
 *         }
 *         if (a frame of connection k came) {
 *             if (gp_controller_deliver(&controller, k, frame, frame_len, &out, &did) != GP_OK) fail();
 *             follow(k);
 *         }
 *         for each connection c to which nothing was sent for 3 milliseconds: if (last[c].len != 0) send(c, last[c]);
 *     }
 *
 * Yours are the three numbers in capitals, what each (each) line names of its connection, block or drive, stop, and
 * fail() and send(). Number the connections and blocks in the order of their calls, from 1. A program that was late
 * counts all ticks before it delivers what waited. fail() resets each connection, sends the frames that this gives, and
 * ends; gp_controller_hold keeps a connection at zeros without a reset. guards says that the output is 0 whenever the
 * input `stop` is: ask for each output that moves something and each stop that has to stop it, and don't run if one
 * answers 0. Whole programs are examples/estop.c and udp_estop.c. What gatepast.h says of frames, of ids and of resets
 * holds for each connection, but did.used is always 0: nothing shows here that an id comes again.
 *
 * Cycles
 *     In a cycle the net reads the inputs of all connections and sets their outputs: each output bit that a drive names
 *     to its wire's value, and all others to 0. There is a cycle at the start, in each tick and reset, and in each
 *     delivery whose frame was taken or ended the session; only those of ticks count time for blocks. An output leaves
 *     with the next data frame of its connection: a delivery's cycle comes before the answer to this delivery. Inputs
 *     are zeros in each state but GP_DATA and after a FailSafeData frame, so a stop that is pressed and a connection
 *     that is lost look the same: let 0 mean stop, and let no 1 that comes back start anything. What a net owes is in
 *     docs/application.md.
 *
 * Memory
 *     A controller lies in a gp_controller_memory, and what it has for its connections and blocks in a region that the
 *     program hands in: an array of gp_unit. open takes room there for as many as `most` says, and block for a
 *     block's inputs; connect, block and drive take more if there are more than that. If there is no room, they answer
 *     GP_NO_MEMORY, and may have used up some of it. Nothing is given back before end. start closes the region:
 *     from then on no call gets more of it. GP_REGION_UNITS is tried to be enough.
 *
 * Answers
 *     Each call returns a number of enum gp_answer or enum gp_controller_answer, except gp_.._version, gp_.._size and
 *     gp_.._align. A refused call changed nothing, but that start tells its fault. If there are several reasons,
 *     GP_NO_END and GP_BUSY come first, then GP_RUNNING or GP_NOT_RUNNING, then GP_NO_CONNECTION, then those that a
 *     call names, in their order.
 *
 * What you owe
 *     What gatepast.h lists, for handles of controllers as for those of ends, with gp_controller_end,
 *     gp_controller_size and GP_CONTROLLER_IN. gp_version is of the ends' archive: compare gp_controller_version()
 *     with GP_CONTROLLER_VERSION. From gp_controller_open on the region is the controller's, whatever open answers.
 *     That nothing uses it after gp_controller_end or after a refused open, and that open refuses a controller that is
 *     there also if it is given this controller's own region, is tried, but not proved.
 */
#ifndef GATEPAST_CONTROLLER_H
#define GATEPAST_CONTROLLER_H

#include "gatepast.h"

#ifdef __cplusplus
#define GP_ALIGNED alignas(8)
#define GP_ALIGNED_16 alignas(16)
extern "C" {
#else
#define GP_ALIGNED _Alignas(8)
#define GP_ALIGNED_16 _Alignas(16)
#endif

#if (defined(__cplusplus) && __cplusplus >= 201703L) || (!defined(__cplusplus) && __STDC_VERSION__ >= 202311L)
#define GP_CHECKED [[nodiscard]]
#elif defined(__GNUC__)
#define GP_CHECKED __attribute__((warn_unused_result))
#else
#define GP_CHECKED
#endif

/* The version of this header. gp_controller_version() returns that of the archive. */
#define GP_CONTROLLER_VERSION 1

/* The memory of a controller. gp_controller_size() returns the same number. */
#define GP_CONTROLLER_SIZE 1160

/* The most connections, blocks, inputs of a block, and drives. */
#define GP_MOST_CONNECTIONS 64
#define GP_MOST_BLOCKS 256
#define GP_MOST_INPUTS 8
#define GP_MOST_DRIVES 1024

/* What a call returns besides the numbers of enum gp_answer. */
enum gp_controller_answer {
    GP_NO_MEMORY = 20,     /* open, connect, block, drive: the region has no room */
    GP_RUNNING = 21,       /* connect, block, drive, start: it runs already */
    GP_NOT_RUNNING = 22,   /* the call wants a controller that runs */
    GP_NO_CONNECTION = 23, /* no connection has this number */
    GP_TOO_MANY = 24,      /* there may not be another connection, block or drive, or not so many inputs */
    GP_SAME_CONN = 25,     /* connect: another connection has this connection id */
    GP_BAD_KIND = 26,      /* block: no number of enum gp_kind */
    GP_NO_BLOCK = 27,      /* value: no block has this number */
    GP_ARITY = 28,         /* start: the fault's block may not have so many inputs */
    GP_LATER = 29,         /* start: a wire of the fault's block reads this block, a later one, or one that isn't there;
                              block 0 stands for a drive */
    GP_NO_INPUT = 30,      /* start: a wire reads the fault's bit, which no connection receives; guards: this one */
    GP_NO_OUTPUT = 31,     /* start: a drive sets the fault's bit, which no connection sends; guards: this one */
    GP_TWICE = 32          /* start: two drives set the fault's bit */
};

/* The kinds of blocks, with their inputs in order. A tick is a cycle of gp_controller_tick, and n the block's number of
   ticks, which the other kinds don't use. docs/protocol.md has each step by step. */
enum gp_kind {
    GP_CONST0 = 0,    /* no input: 0 */
    GP_CONST1 = 1,    /* no input: 1 */
    GP_AND = 2,       /* 1 to 8 inputs: 1 if all are */
    GP_OR = 3,        /* 1 to 8 inputs: 1 if one is */
    GP_LATCH = 4,     /* set, enable: 1 from a cycle with set on, while enable is 1 */
    GP_ESTOP = 5,     /* input, acknowledgement: 1 from a cycle on in which the acknowledgement rises and the input is 1,
                         while the input stays 1. An acknowledgement that is stuck at 1 rises anew after each loss of its
                         connection: wire it by two bits and two latches, as docs/application.md shows */
    GP_TWO_HAND = 6,  /* two buttons: 1 while both are pressed, if neither was before, and then one alone for at most n
                         ticks */
    GP_ON_DELAY = 7,  /* one input: 1 if it has been 1 for n ticks */
    GP_OFF_DELAY = 8, /* one input: 1 if it is, and until the n-th tick after */
    GP_FEEDBACK = 9   /* command, feedback (1 while the contactor is released): the command, but 0 if the contactor
                         didn't follow for more than n ticks, until it is released without a command */
};

/* What a block's input or a drive reads. Bits count from the lowest one of the first byte. Set one by a macro. */
typedef struct gp_wire {
    uint16_t connection; /* 0: the value of block `number`; else input bit `number` of this connection */
    uint16_t number;
} gp_wire;

#define GP_INPUT(connection, number) {(connection), (number)}
#define GP_BLOCK(number) {0, (number)}

/* A bit of what a connection receives, or sends. */
typedef struct gp_bit {
    uint16_t connection;
    uint16_t bit;
} gp_bit;

/* A unit of a region: 16 bytes, aligned to 16. */
typedef struct gp_unit {
    GP_ALIGNED_16 uint8_t bytes[16];
} gp_unit;

/* The units of a region that are enough for a controller that is opened with these numbers and gets no more, whatever
   its lengths, inputs and kinds are. */
#define GP_REGION_UNITS(connections, blocks, drives) \
    (9 + 161 * (size_t)(connections) + 6 * (size_t)(blocks) + (5 * (size_t)(drives) + 7) / 8)

/* How many of each a controller is to have room for. */
typedef struct gp_most {
    uint16_t connections;
    uint16_t blocks;
    uint16_t drives;
} gp_most;

/* Where start found its fault: a block, or a bit of a connection. What doesn't apply is 0. */
typedef struct gp_fault {
    uint16_t block;
    uint16_t connection;
    uint16_t bit;
} gp_fault;

/* What happened at a connection since its counts were cleared. A count that reached 2^32 - 1 stays there. The places of
   peer and found are the codes 0 to 0Bh, and one for all others; those of dropped are enum gp_dropped less 1. */
#define GP_COUNTED_CODES 13

typedef struct gp_counts {
    uint32_t sessions;                /* sessions that began */
    uint32_t local;                   /* resets by gp_controller_reset */
    uint32_t peer[GP_COUNTED_CODES];  /* resets by the slave, by its codes */
    uint32_t found[GP_COUNTED_CODES]; /* resets for a fault that the controller found, by codes */
    uint32_t dropped[3];              /* frames that were dropped, by their reasons */
} gp_counts;

/* Memory for a controller, and its handle, as for a slave and a master. */
typedef struct gp_controller_memory {
    GP_ALIGNED uint8_t bytes[GP_CONTROLLER_SIZE];
} gp_controller_memory;

typedef struct gp_controller {
    gp_controller_memory *memory;
    bool live;
} gp_controller;

#define GP_CONTROLLER_IN(memory) {(memory), false}

/* Return the version, its memory's bytes, and a number that has to divide their address. */
uint32_t gp_controller_version(void);
size_t gp_controller_size(void);
size_t gp_controller_align(void);

/* As gp_build, of this archive. */
GP_CHECKED uint8_t gp_controller_build(uint8_t *text, size_t text_len);

/* ---- A controller is made ---- */

/* Creates a controller in its memory, without a connection, a block or a drive. It doesn't run. `size` is the bytes of
   the region, which may be more than most needs. Answers GP_BUSY, then GP_NO_ROOM for a handle without memory, then
   GP_NO_MEMORY. */
GP_CHECKED uint8_t gp_controller_open(gp_controller *controller, gp_unit *region, size_t size, const gp_most *most);

/* Adds a connection, as gp_master_init sets a master, and tells its number, from 1. Answers GP_BAD_APP for more than
   512 bytes, then what gp_master_init answers, then GP_TOO_MANY, GP_SAME_CONN, GP_NO_MEMORY. */
GP_CHECKED uint8_t gp_controller_connect(gp_controller *controller, const gp_master_settings *set, const uint8_t *app,
                                         size_t app_len, uint16_t *connection);

/* Adds a block, whose inputs these wires are, and tells its number, from 1. What is wrong with its wires, start finds.
   Answers GP_TOO_MANY, GP_BAD_KIND, GP_NO_MEMORY. */
GP_CHECKED uint8_t gp_controller_block(gp_controller *controller, uint8_t kind, uint16_t n, const gp_wire *inputs,
                                       size_t inputs_len, uint16_t *block);

/* Has an output bit set to what a wire reads. Answers GP_TOO_MANY, GP_NO_MEMORY. */
GP_CHECKED uint8_t gp_controller_drive(gp_controller *controller, const gp_bit *output, const gp_wire *from);

/* Makes the net of these blocks and drives, and runs its first cycle. Its first fault is answered, by GP_ARITY to
   GP_TWICE, and written to fault: of the blocks in order, each first by its number of inputs and then wire by wire, and
   then of the drives in order, each by its bit and then its wire. Then it doesn't run: end it, and make it anew. */
GP_CHECKED uint8_t gp_controller_start(gp_controller *controller, gp_fault *fault);

/* Ends the use of the controller, running or not; its memory and its region are yours again. If the slaves are to know
   it, reset each connection before, and send its frame. */
uint8_t gp_controller_end(gp_controller *controller);

/* ---- It runs ---- */

/* Delivers a frame of the slave of this connection: any bytes, of any number. out is the frame to send to this slave,
   with len 0 if none is. Other connections are changed only by the cycle. */
GP_CHECKED uint8_t gp_controller_deliver(gp_controller *controller, uint16_t connection, const uint8_t *frame,
                                         size_t frame_len, gp_frame *out, gp_did *did);

/* Counts a tick at all connections in order, and then runs a cycle. */
GP_CHECKED uint8_t gp_controller_tick(gp_controller *controller);

/* Tells what the last tick did at this connection, and its frame to send; before the first tick nothing and no frame.
   Ask once for each connection after each tick, before its next deliver or reset: later it tells the old frame. */
GP_CHECKED uint8_t gp_controller_ticked(gp_controller *controller, uint16_t connection, gp_frame *out, gp_did *did);

/* Ends the session of this connection, if there is one, and runs a cycle. out is the Reset frame to send. */
GP_CHECKED uint8_t gp_controller_reset(gp_controller *controller, uint16_t connection, gp_frame *out, gp_did *did);

/* Switches fail-safe data of this connection on or off, as gp_master_hold: while on, its slave gets zeros. */
GP_CHECKED uint8_t gp_controller_hold(gp_controller *controller, uint16_t connection, bool failsafe);

/* Sets the session id of this connection, as gp_master_nonce: give a fresh one after each did.reset. Answers
   GP_BAD_NONCE. */
GP_CHECKED uint8_t gp_controller_nonce(gp_controller *controller, uint16_t connection, uint32_t id);

/* ---- Readers: they change nothing at the controller ---- */

/* How many connections there are. */
GP_CHECKED uint8_t gp_controller_connections(gp_controller *controller, uint16_t *count);

/* enum gp_state of this connection's master. */
GP_CHECKED uint8_t gp_controller_state(gp_controller *controller, uint16_t connection, uint8_t *state);

/* The data received from the slave of this connection, as gp_master_outputs. inputs_len is its slave_len, else the
   answer is GP_BAD_LENGTH. */
GP_CHECKED uint8_t gp_controller_inputs(gp_controller *controller, uint16_t connection, uint8_t *inputs,
                                        size_t inputs_len);

/* What the last cycle set the outputs of this connection to, zeros before the first. offer_len is its master_len, else
   the answer is GP_BAD_LENGTH. */
GP_CHECKED uint8_t gp_controller_offer(gp_controller *controller, uint16_t connection, uint8_t *offer,
                                       size_t offer_len);

/* Only in state GP_DATA, else the answer is GP_NOT_IN_DATA. */
GP_CHECKED uint8_t gp_controller_terms(gp_controller *controller, uint16_t connection, gp_terms *terms);

/* The ticks since a frame was sent to this connection, as gp_master_age, and 1 if its fail-safe data are on. */
GP_CHECKED uint8_t gp_controller_age(gp_controller *controller, uint16_t connection, uint16_t *age);
GP_CHECKED uint8_t gp_controller_held(gp_controller *controller, uint16_t connection, uint8_t *held);

/* 1: the last call of start, deliver, tick or reset changed the offer of this connection; 0 after hold and nonce. */
GP_CHECKED uint8_t gp_controller_changed(gp_controller *controller, uint16_t connection, uint8_t *changed);

/* The counts of this connection. gp_controller_clear_counts makes them zeros, and changes nothing else. */
GP_CHECKED uint8_t gp_controller_counts(gp_controller *controller, uint16_t connection, gp_counts *counts);
GP_CHECKED uint8_t gp_controller_clear_counts(gp_controller *controller, uint16_t connection);

/* The value of a block in the last cycle. GP_NOT_RUNNING, then GP_NO_BLOCK. */
GP_CHECKED uint8_t gp_controller_value(gp_controller *controller, uint16_t block, uint8_t *value);

/* 1: this output bit is 0 after each cycle in which this input bit is 0, by the blocks on its way, or no drive sets it.
   0 doesn't say that it isn't. GP_NOT_RUNNING, then GP_NO_CONNECTION for either bit, then GP_NO_OUTPUT, GP_NO_INPUT. */
GP_CHECKED uint8_t gp_controller_guards(gp_controller *controller, const gp_bit *output, const gp_bit *input,
                                        uint8_t *guards);

#ifdef __cplusplus
}
#define GP_ASSERT static_assert
#else
#define GP_ASSERT _Static_assert
#endif

/* The library was built for this layout. */
GP_ASSERT(sizeof(gp_wire) == 4 && offsetof(gp_wire, connection) == 0 && offsetof(gp_wire, number) == 2, "gp_wire");
GP_ASSERT(sizeof(gp_bit) == 4 && offsetof(gp_bit, connection) == 0 && offsetof(gp_bit, bit) == 2, "gp_bit");
GP_ASSERT(sizeof(gp_unit) == 16, "gp_unit");
GP_ASSERT(sizeof(gp_most) == 6 && offsetof(gp_most, connections) == 0 && offsetof(gp_most, blocks) == 2 &&
              offsetof(gp_most, drives) == 4,
          "gp_most");
GP_ASSERT(sizeof(gp_fault) == 6 && offsetof(gp_fault, block) == 0 && offsetof(gp_fault, connection) == 2 &&
              offsetof(gp_fault, bit) == 4,
          "gp_fault");
GP_ASSERT(sizeof(gp_counts) == 124 && offsetof(gp_counts, sessions) == 0 && offsetof(gp_counts, local) == 4 &&
              offsetof(gp_counts, peer) == 8 && offsetof(gp_counts, found) == 60 && offsetof(gp_counts, dropped) == 112,
          "gp_counts");
GP_ASSERT(sizeof(gp_controller) == 16 && offsetof(gp_controller, memory) == 0 && offsetof(gp_controller, live) == 8,
          "gp_controller");
GP_ASSERT(sizeof(gp_controller_memory) == GP_CONTROLLER_SIZE, "memory");

#undef GP_ASSERT
#undef GP_ALIGNED
#undef GP_ALIGNED_16
#undef GP_CHECKED

#endif
