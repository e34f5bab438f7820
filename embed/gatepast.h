/*
 * gatepast.h - both ends of a Gatepast connection (Safety over EtherCAT in a profile of its own), for C11 and C++11 on.
 *
 * An end has no clock and no communication interface: your program passes in frames and ticks, and sends its frames.
 * It allocates no memory, holds no lock, waits for nothing and keeps nothing outside the memory that you give it. The
 * library needs memcpy, memmove and memset, and no other function.
 *
 *     static gp_slave_memory memory;
 *     static gp_slave slave = GP_SLAVE_IN(&memory);
 *     static gp_frame out, last;
 *     static gp_did did;
 *     static gp_terms terms;
 *
 *     void follow(void) {                                   (after each step)
 *         uint8_t outputs[MASTER_LEN] = {0};
 *         if (did.used) fail();                             (before anything is sent)
 *         if (gp_slave_terms(&slave, &terms) == GP_OK && (terms.conn != CONNECTION || ..) &&
 *             gp_slave_reset(&slave, &out, &did) != GP_OK) fail();
 *         if (gp_slave_outputs(&slave, outputs, sizeof outputs) != GP_OK) fail();
 *         apply(outputs);                                   (before anything that may take long)
 *         if (out.len != 0) send(last = out);
 *         if (did.reset != GP_NO_RESET && gp_slave_nonce(&slave, a fresh id) != GP_OK) fail();
 *     }
 *
 *     switch_off();
 *     if (gp_version() != GP_VERSION || gp_slave_init(&slave, &settings, 0) != GP_OK) fail();
 *     for (;;) {
 *         while (a millisecond passed that isn't counted yet) {
 *             if (gp_slave_tick(&slave, &out, &did) != GP_OK) fail();
 *             follow();
 *         }
 *         if (a frame came) {
 *             if (gp_slave_deliver(&slave, frame, frame_len, &out, &did) != GP_OK) fail();
 *             follow();
 *         }
 *         if (last.len != 0 && nothing was sent for 3 milliseconds) send(last);
 *     }
 *
 * A program that was late counts all ticks before it delivers what waited: else old data switch outputs on. A master's
 * loop is the same, with gp_master_accept and gp_master_reply if it decides in between. fail() switches off and ends.
 * A slave takes any connection id: compare the terms. The library never makes a session id: your program gives a fresh
 * one before each session. If it forgets that, the old id comes again, and old frames may pass. Nothing but did.used
 * shows it, which knows only the session before, since gp_.._init. Each reset takes an id: stop after too many. Whole
 * loops are examples/drive.c, controller.c; udp_drive.c, udp_controller.c over UDP; cyclic.c over an image. No two ids
 * of an end have the same low 16 bits, or 8 if a length is 1: docs/duties.md has the whole rule. send() only puts a frame
 * on its way: none is delivered to this end before follow() has returned, else the next session begins with the old id.
 * A slave that has data to send puts them before it delivers a frame (gp_slave_put).
 *
 * Frames
 *     A frame of n safe data bytes has 2 * n + 3 bytes, or 6 if n is 1. Deliver it whole, without what the bus adds.
 *     Both ends send their last frame again until a step gives the next, far more often than a watchdog expires. An end
 *     drops the frame that it took last in its session, so a lost frame is no stop (proved, while each frame that comes
 *     is the peer's last and no watchdog expires). An older frame ends the session.
 *     Datagrams (UDP) may overtake each other. Put a number before each frame that rises with each datagram, also with
 *     copies and after a restart: a stored session id, then a count. Throw away a datagram whose number doesn't rise.
 *     A stream (TCP) loses nothing, and doesn't say where a frame ends: count its bytes. After it broke, begin a new
 *     one with the last frame, and throw away half a frame of the old one.
 *     A cyclic image (EtherCAT): in each cycle deliver the bytes of the peer's slot, changed or not, if the bus says
 *     that they came whole. Write `out` to your slot if its len isn't 0, and else leave what is there.
 *
 * Answers
 *     Each call returns a number of enum gp_answer, except gp_version, gp_.._size and gp_.._align. GP_OK says that the
 *     call was done. Every other number says why it was refused. A refused call changed nothing: neither the end, nor
 *     what the pointers lead to, so `out` still has the frame of the step before. If there are several reasons, GP_NO_END
 *     and GP_BUSY come first, then GP_NO_ROOM and GP_FRAME_DUE.
 *
 * What you owe
 *     The code of each call is proved to do what this page says, provided that:
 *     1. A handle is zeros, or is set by GP_SLAVE_IN or GP_MASTER_IN before its first call, to null or to memory that no
 *        other handle has. This is a gp_slave_memory or gp_master_memory, or as many bytes at an address that
 *        gp_.._align() divides; before gp_.._init it may contain anything. From then on only these calls change the
 *        handle, and the memory as long as an end is there. The memory stays where it is until gp_.._end; the handle may
 *        be moved. Memory without an end may be used again or freed. So may the memory of an end that is not needed any
 *        more, also without gp_.._end: then set its handle anew before any other call.
 *     2. Each other pointer leads to an object of its type, or to as many bytes as the number beside it says. All of it has
 *        values, also what is only written to: `= {0}` and static storage give them. If that number is 0, the pointer is
 *        not followed; null there is tried, but not proved.
 *     3. What a call may write to (through a pointer without const) overlaps nothing else that the call is given. So the
 *        delivered frame lies outside `out`.
 *     4. No two calls with the same handle overlap, also not those of readers: none is made in an interrupt or a signal
 *        handler that interrupted another. Calls with different handles may run in different threads.
 *     5. A bool is true or false.
 *     6. Header and archive are of one version: compare gp_version() with GP_VERSION, as above.
 *     Any number, length and byte may be passed at any time. What a machine needs besides is in docs/duties.md.
 *
 *     Not proved, but believed, since the library keeps nothing of a thread: another thread may go on with a handle, if the
 *     hand-over is ordered, for example by a lock.
 *
 * Units
 *     Ticks are milliseconds, or what both ends tick by. Lengths are bytes. Numbers have the machine's byte order.
 */
#ifndef GATEPAST_H
#define GATEPAST_H

#include <stdbool.h>
#include <stddef.h>
#include <stdint.h>

#ifdef __cplusplus
#if __cplusplus < 201103L
#error "gatepast.h needs C++11"
#endif
#define GP_ALIGNED alignas(8)
extern "C" {
#else
#if !defined(__STDC_VERSION__) || __STDC_VERSION__ < 201112L
#error "gatepast.h needs C11"
#endif
#define GP_ALIGNED _Alignas(8)
#endif

/* Compilers that can, warn if the returned number isn't looked at. */
#if (defined(__cplusplus) && __cplusplus >= 201703L) || (!defined(__cplusplus) && __STDC_VERSION__ >= 202311L)
#define GP_CHECKED [[nodiscard]]
#elif defined(__GNUC__)
#define GP_CHECKED __attribute__((warn_unused_result))
#else
#define GP_CHECKED
#endif

/* The version of this header: one more with each change of a call, a number, a size or a struct in it. */
#define GP_VERSION 2

/* The bytes of the line that gp_build writes. */
#define GP_BUILD_LENGTH 136

/* The memory of an end. gp_slave_size() and gp_master_size() return the same numbers. */
#define GP_SLAVE_SIZE 2888
#define GP_MASTER_SIZE 2336

/* The most safe data bytes of a frame, bytes of a frame, and bytes of application parameters. */
#define GP_MOST_DATA 126
#define GP_MOST_FRAME 255
#define GP_MOST_APP 512

/* What a call returns. */
enum gp_answer {
    GP_OK = 0,
    GP_NO_END = 1,       /* no end is there: before init, or after end */
    GP_BUSY = 2,         /* init: an end is there already */
    GP_BAD_LENGTH = 3,   /* init: a length is neither 1 nor even and from 2 to 126; put, offer: not as many bytes as
                            this end sends; outputs: as its peer sends; build: not GP_BUILD_LENGTH */
    GP_BAD_PROFILE = 4,  /* init: the profile is neither 1 nor 2 */
    GP_BAD_NONCE = 5,    /* init, nonce: a session id above 65535 in profile 1 */
    GP_BAD_CONN = 6,     /* init: the connection id is 0 */
    GP_BAD_WATCHDOG = 7, /* init: the watchdog is 0 */
    GP_BAD_HAND = 8,     /* init: hand is 0 */
    GP_BAD_MOST = 9,     /* init: most is 0 */
    GP_BAD_APP = 10,     /* init: more than 512 bytes of application parameters, ranges of different lengths, or a lowest
                            value above its highest */
    GP_FRAME_DUE = 11,   /* deliver, accept, tick, reset of a master: a frame is due. Call reply, and then this again: a
                            refused tick is not counted */
    GP_NONE_DUE = 12,    /* reply: no frame is due */
    GP_NOT_IN_DATA = 13, /* terms: the end is not in state GP_DATA */
    GP_NO_ROOM = 14      /* init, open: the handle has no memory: it is null */
};

/* The states of an end, in the order of a session. */
enum gp_state { GP_RESET = 0, GP_SESSION = 1, GP_CONNECTION = 2, GP_PARAMETER = 3, GP_DATA = 4 };

/* The commands of frames: gp_did.took is one of these, or 0. */
enum gp_command {
    GP_TOOK_NOTHING = 0,
    GP_COMMAND_FAIL_SAFE_DATA = 0x08,
    GP_COMMAND_RESET = 0x2A,
    GP_COMMAND_PROCESS_DATA = 0x36,
    GP_COMMAND_SESSION = 0x4E,
    GP_COMMAND_PARAMETER = 0x52,
    GP_COMMAND_CONNECTION = 0x64
};

/* Why an end went to state GP_RESET: gp_did.reset is one of these. */
enum gp_cause {
    GP_NO_RESET = 0,
    GP_BY_CALL = 1,  /* reset was called */
    GP_BY_PEER = 2,  /* the peer sent a Reset frame */
    GP_BY_FAULT = 3  /* this end found a fault: gp_did.code says which */
};

/* The codes of resets: gp_did.code is one of these, or a peer's own above. docs/duties.md says what to do at each. */
enum gp_code {
    GP_CODE_LOCAL_RESET = 0x00,
    GP_CODE_COMMAND_NOT_ALLOWED = 0x01,
    GP_CODE_UNKNOWN_COMMAND = 0x02,
    GP_CODE_WRONG_CONNECTION = 0x03,
    GP_CODE_WRONG_CRC = 0x04,
    GP_CODE_WATCHDOG_EXPIRED = 0x05,
    GP_CODE_WRONG_ADDRESS = 0x06,
    GP_CODE_WRONG_DATA = 0x07,
    GP_CODE_WRONG_COMMUNICATION_LENGTH = 0x08,
    GP_CODE_WRONG_COMMUNICATION = 0x09,
    GP_CODE_WRONG_APPLICATION_LENGTH = 0x0A,
    GP_CODE_WRONG_APPLICATION = 0x0B
};

/* Why a frame was dropped without an answer: gp_did.dropped is one of these. */
enum gp_dropped {
    GP_NOT_DROPPED = 0,
    GP_DROPPED_LENGTH = 1,  /* its length is not that of the peer's frames */
    GP_DROPPED_REPEAT = 2,  /* it equals the last frame taken: it was sent again, and all is well */
    GP_DROPPED_IN_RESET = 3 /* it fails a test in state GP_RESET */
};

/* A frame: the first `len` bytes of `bytes`. Those behind them are never written. */
typedef struct gp_frame {
    size_t len; /* 0 if nothing is to be sent */
    uint8_t bytes[GP_MOST_FRAME];
} gp_frame;

/* What a step did. At most one of `took`, `reset` and `dropped` is not 0. */
typedef struct gp_did {
    uint8_t took;               /* enum gp_command: that of the frame that was taken, 0 if none was */
    uint8_t passed;             /* 1: a frame that is no Reset frame passed its CRC test */
    uint8_t sent;               /* 1: there is a frame to send; always 0 after accept: see there */
    uint8_t reset;              /* enum gp_cause */
    uint8_t code;               /* enum gp_code: the code of that reset, 0 if there is none */
    uint8_t dropped;            /* enum gp_dropped */
    uint8_t load_len;           /* the safe data of the frame that was taken are the first load_len bytes of load */
    uint8_t load[GP_MOST_DATA]; /* those behind them are never written */
    uint8_t used;               /* 1: a session begins with this step, and its id is that of this end's session before;
                                   after accept as if reply followed at once. Then don't send: the id isn't fresh */
} gp_did;

/* What the ends of a session agreed on. */
typedef struct gp_terms {
    uint16_t conn;     /* the connection id */
    uint16_t address;  /* the slave's address */
    uint16_t watchdog; /* in ticks */
    uint16_t word;     /* the profile word; 0 in profile 1 */
    uint16_t app_len;  /* the application parameters are the first app_len bytes of app */
    uint8_t profile;   /* 1 or 2 */
    uint8_t app[GP_MOST_APP];
} gp_terms;

/* The settings of a slave, except its rule for application parameters. */
typedef struct gp_slave_settings {
    uint16_t master_len; /* safe data bytes of the master's frames: 1, or even and 2 to 126 */
    uint16_t slave_len;  /* safe data bytes of the slave's frames: 1, or even and 2 to 126 */
    uint16_t address;    /* the slave's address, any number */
    uint16_t hand;       /* the handshake timeout, until the master's watchdog is known: n ends the session in the n-th tick
                            after this slave sent its last frame; 1 to 65535 */
    uint16_t most;       /* the longest watchdog that is accepted from a master, in ticks, 1 to 65535 */
    uint16_t profile;    /* 1 or 2 */
    uint32_t nonce;      /* the first session's id: give a fresh one; at most 65535 in profile 1 */
    uint16_t word;       /* the profile word; not read in profile 1 */
} gp_slave_settings;

/* The settings of a master, except the application parameters. */
typedef struct gp_master_settings {
    uint16_t master_len; /* safe data bytes of the master's frames: 1, or even and 2 to 126 */
    uint16_t slave_len;  /* safe data bytes of the slave's frames: 1, or even and 2 to 126 */
    uint16_t conn;       /* the connection id, 1 to 65535 */
    uint16_t address;    /* the address of the slave */
    uint16_t watchdog;   /* at both ends: n ends the session in the n-th tick after that end sent its last frame; 1 to
                            65535 */
    uint16_t profile;    /* 1 or 2 */
    uint32_t nonce;      /* the first session's id: give a fresh one; at most 65535 in profile 1 */
    uint16_t word;       /* the profile word; not read in profile 1 */
} gp_master_settings;

/* Memory for a slave, and for a master. */
typedef struct gp_slave_memory {
    GP_ALIGNED uint8_t bytes[GP_SLAVE_SIZE];
} gp_slave_memory;

typedef struct gp_master_memory {
    GP_ALIGNED uint8_t bytes[GP_MASTER_SIZE];
} gp_master_memory;

/* The handles. Set one by its macro where it is declared, and leave its fields to the library. Set one anew by
   `slave = (gp_slave)GP_SLAVE_IN(&memory)` in C, `slave = gp_slave GP_SLAVE_IN(&memory)` in C++11. */
typedef struct gp_slave {
    gp_slave_memory *memory;
    bool live;
} gp_slave;

typedef struct gp_master {
    gp_master_memory *memory;
    bool live;
} gp_master;

#define GP_SLAVE_IN(memory) {(memory), false}
#define GP_MASTER_IN(memory) {(memory), false}

/* Returns the version of the archive. */
uint32_t gp_version(void);

/* Writes a line of ASCII with its line end: the sources and the toolchain that the archive was made of. text_len is
   GP_BUILD_LENGTH; else the answer is GP_BAD_LENGTH. */
GP_CHECKED uint8_t gp_build(uint8_t *text, size_t text_len);

/* ---- A slave ---- */

/* Return its memory's bytes, and a number that has to divide their address. */
size_t gp_slave_size(void);
size_t gp_slave_align(void);

/* Creates a slave in its memory, in state GP_RESET, with offer and outputs of zeros, and fail-safe data off. It
   accepts as application parameters any app_len bytes, or only those at app. By the third call it accepts as many bytes as
   low and high have, each from low to high at its place.
   The first fault is returned, here and by gp_master_init. GP_BUSY is first, then GP_NO_ROOM, then GP_BAD_APP for more
   than 512 bytes at app, low or high. The others come by their numbers, so GP_BAD_APP for app_len of gp_slave_init, or
   for ranges that do not match, is last. */
GP_CHECKED uint8_t gp_slave_init(gp_slave *slave, const gp_slave_settings *set, uint16_t app_len);
GP_CHECKED uint8_t gp_slave_init_exact(gp_slave *slave, const gp_slave_settings *set, const uint8_t *app, size_t app_len);
GP_CHECKED uint8_t gp_slave_init_ranges(gp_slave *slave, const gp_slave_settings *set, const uint8_t *low, size_t low_len,
                                        const uint8_t *high, size_t high_len);

/* Ends the use of the slave; the memory is yours again. If the peer is to know it, call gp_slave_reset before, and send
   its frame, some times if frames get lost. */
uint8_t gp_slave_end(gp_slave *slave);

/* Delivers a frame of the master: any bytes, of any number. out is the frame to send, with len 0 if none is. */
GP_CHECKED uint8_t gp_slave_deliver(gp_slave *slave, const uint8_t *frame, size_t frame_len, gp_frame *out, gp_did *did);

/* Counts a tick. If the watchdog expires, the session ends with code 5, the outputs are zeros from this call on, and out
   is the Reset frame to send. */
GP_CHECKED uint8_t gp_slave_tick(gp_slave *slave, gp_frame *out, gp_did *did);

/* Ends the session, if there is one. out is the Reset frame to send. */
GP_CHECKED uint8_t gp_slave_reset(gp_slave *slave, gp_frame *out, gp_did *did);

/* Sets the safe data to send from now on, slave_len bytes. They outlast resets: the next session sends them again. So if
   old data may not come again, put zeros or hold after each did.reset. */
GP_CHECKED uint8_t gp_slave_put(gp_slave *slave, const uint8_t *load, size_t load_len);

/* Switches fail-safe data on or off. While on, the session continues, and the slave sends zeros as FailSafeData in place
   of what was put. It outlasts resets. */
GP_CHECKED uint8_t gp_slave_hold(gp_slave *slave, bool failsafe);

/* Sets the id of all sessions whose first Session frame is sent after this call. It outlasts resets: give a fresh one
   after each did.reset, else the next session has the same one again, and did.used is 1 when it begins. */
GP_CHECKED uint8_t gp_slave_nonce(gp_slave *slave, uint32_t id);

/* Readers: they change nothing at the slave. */

/* enum gp_state. */
GP_CHECKED uint8_t gp_slave_state(gp_slave *slave, uint8_t *state);

/* The data received from the master (SafeOutputs in ETG.5100): those of the last frame taken. They are zeros in every
   state but GP_DATA, after a FailSafeData frame, and from the tick at which the watchdog expires. outputs_len is
   master_len. */
GP_CHECKED uint8_t gp_slave_outputs(gp_slave *slave, uint8_t *outputs, size_t outputs_len);

/* What was put last, zeros at first. offer_len is slave_len. */
GP_CHECKED uint8_t gp_slave_offer(gp_slave *slave, uint8_t *offer, size_t offer_len);

/* Only in state GP_DATA. */
GP_CHECKED uint8_t gp_slave_terms(gp_slave *slave, gp_terms *terms);

/* The ticks since this slave sent its last frame, 0 in state GP_RESET. */
GP_CHECKED uint8_t gp_slave_age(gp_slave *slave, uint16_t *age);

/* 1: fail-safe data on; 0: off. */
GP_CHECKED uint8_t gp_slave_held(gp_slave *slave, uint8_t *held);

/* ---- A master ---- */

size_t gp_master_size(void);
size_t gp_master_align(void);

/* Creates a master in its memory, with these application parameters for its slave, in state GP_RESET. Offer and outputs are
   zeros, and fail-safe data off. Its first tick sends the first frame. gp_slave_init has the order of faults. */
GP_CHECKED uint8_t gp_master_init(gp_master *master, const gp_master_settings *set, const uint8_t *app, size_t app_len);

/* Ends the use of the master; the memory is yours again. If the peer is to know it, call gp_master_reset before, and send
   its frame, some times if frames get lost. */
uint8_t gp_master_end(gp_master *master);

/* Delivers a frame of the slave: any bytes, of any number. out is the frame to send, with len 0 if none is. */
GP_CHECKED uint8_t gp_master_deliver(gp_master *master, const uint8_t *frame, size_t frame_len, gp_frame *out, gp_did *did);

/* Deliver in two calls, with the application between them. After accept, read the outputs and put new data. If a frame is
   due, reply writes it, with these data. A frame is due exactly if did.took or did.reset is not 0. Until reply, deliveries,
   ticks and resets are refused. */
GP_CHECKED uint8_t gp_master_accept(gp_master *master, const uint8_t *frame, size_t frame_len, gp_did *did);
GP_CHECKED uint8_t gp_master_due(gp_master *master, uint8_t *due); /* 1 if a frame is due */
GP_CHECKED uint8_t gp_master_reply(gp_master *master, gp_frame *out);

/* Counts a tick. If the watchdog expires, the session ends with code 5, the outputs are zeros from this call on, and out
   is the Reset frame to send. In state GP_RESET out is the Reset frame again at each expiry, did.reset is 0,
   and no id is needed. */
GP_CHECKED uint8_t gp_master_tick(gp_master *master, gp_frame *out, gp_did *did);

/* Ends the session, if there is one. out is the Reset frame to send. */
GP_CHECKED uint8_t gp_master_reset(gp_master *master, gp_frame *out, gp_did *did);

/* Set the safe data to send (master_len bytes), fail-safe data, and the session id, as at a slave. They outlast resets,
   and act on a frame that is due too. */
GP_CHECKED uint8_t gp_master_put(gp_master *master, const uint8_t *load, size_t load_len);
GP_CHECKED uint8_t gp_master_hold(gp_master *master, bool failsafe);
GP_CHECKED uint8_t gp_master_nonce(gp_master *master, uint32_t id);

/* Readers, as at a slave: they change nothing at the master. A frame that is due counts as sent. */
GP_CHECKED uint8_t gp_master_state(gp_master *master, uint8_t *state);

/* The data received from the slave (SafeInputs in ETG.5100), zeros as at a slave. outputs_len is slave_len. */
GP_CHECKED uint8_t gp_master_outputs(gp_master *master, uint8_t *outputs, size_t outputs_len);

/* The same data under the name that a controller's program has for them. */
GP_CHECKED static inline uint8_t gp_master_inputs(gp_master *master, uint8_t *inputs, size_t inputs_len) {
    return gp_master_outputs(master, inputs, inputs_len);
}

/* What was put last, zeros at first. offer_len is master_len. */
GP_CHECKED uint8_t gp_master_offer(gp_master *master, uint8_t *offer, size_t offer_len);
GP_CHECKED uint8_t gp_master_terms(gp_master *master, gp_terms *terms);

/* The ticks since this master sent its last frame: watchdog - 1 if it sent none yet, and 0 while a frame is due. */
GP_CHECKED uint8_t gp_master_age(gp_master *master, uint16_t *age);
GP_CHECKED uint8_t gp_master_held(gp_master *master, uint8_t *held);

#ifdef __cplusplus
}
#define GP_ASSERT static_assert
#else
#define GP_ASSERT _Static_assert
#endif

/* The library was built for this layout. */
GP_ASSERT(sizeof(size_t) == 8 && sizeof(void *) == 8 && sizeof(bool) == 1, "a target with 64-bit pointers");
GP_ASSERT(sizeof(gp_frame) == 264 && offsetof(gp_frame, bytes) == 8, "gp_frame");
GP_ASSERT(sizeof(gp_did) == 134 && offsetof(gp_did, took) == 0 && offsetof(gp_did, passed) == 1 &&
              offsetof(gp_did, sent) == 2 && offsetof(gp_did, reset) == 3 && offsetof(gp_did, code) == 4 &&
              offsetof(gp_did, dropped) == 5 && offsetof(gp_did, load_len) == 6 && offsetof(gp_did, load) == 7 &&
              offsetof(gp_did, used) == 133,
          "gp_did");
GP_ASSERT(sizeof(gp_terms) == 524 && offsetof(gp_terms, conn) == 0 && offsetof(gp_terms, address) == 2 &&
              offsetof(gp_terms, watchdog) == 4 && offsetof(gp_terms, word) == 6 && offsetof(gp_terms, app_len) == 8 &&
              offsetof(gp_terms, profile) == 10 && offsetof(gp_terms, app) == 11,
          "gp_terms");
GP_ASSERT(sizeof(gp_slave_settings) == 20 && offsetof(gp_slave_settings, master_len) == 0 &&
              offsetof(gp_slave_settings, slave_len) == 2 && offsetof(gp_slave_settings, address) == 4 &&
              offsetof(gp_slave_settings, hand) == 6 && offsetof(gp_slave_settings, most) == 8 &&
              offsetof(gp_slave_settings, profile) == 10 && offsetof(gp_slave_settings, nonce) == 12 &&
              offsetof(gp_slave_settings, word) == 16,
          "gp_slave_settings");
GP_ASSERT(sizeof(gp_master_settings) == 20 && offsetof(gp_master_settings, master_len) == 0 &&
              offsetof(gp_master_settings, slave_len) == 2 && offsetof(gp_master_settings, conn) == 4 &&
              offsetof(gp_master_settings, address) == 6 && offsetof(gp_master_settings, watchdog) == 8 &&
              offsetof(gp_master_settings, profile) == 10 && offsetof(gp_master_settings, nonce) == 12 &&
              offsetof(gp_master_settings, word) == 16,
          "gp_master_settings");
GP_ASSERT(sizeof(gp_slave) == 16 && offsetof(gp_slave, memory) == 0 && offsetof(gp_slave, live) == 8, "gp_slave");
GP_ASSERT(sizeof(gp_master) == 16 && offsetof(gp_master, memory) == 0 && offsetof(gp_master, live) == 8, "gp_master");
GP_ASSERT(sizeof(gp_slave_memory) == GP_SLAVE_SIZE && sizeof(gp_master_memory) == GP_MASTER_SIZE, "memory");

#undef GP_ASSERT
#undef GP_ALIGNED
#undef GP_CHECKED

#endif
