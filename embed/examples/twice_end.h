/* What a slave and a master have alike with two channels: twice.h includes this once for each of them. */

#ifdef __cplusplus
extern "C" {
#endif
extern __typeof__(TWICE_FIRST(_end)) TWICE_SECOND(_end);
extern __typeof__(TWICE_FIRST(_deliver)) TWICE_SECOND(_deliver);
extern __typeof__(TWICE_FIRST(_tick)) TWICE_SECOND(_tick), TWICE_SECOND(_reset);
extern __typeof__(TWICE_FIRST(_put)) TWICE_SECOND(_put);
extern __typeof__(TWICE_FIRST(_hold)) TWICE_SECOND(_hold);
extern __typeof__(TWICE_FIRST(_nonce)) TWICE_SECOND(_nonce);
extern __typeof__(TWICE_FIRST(_state)) TWICE_SECOND(_state), TWICE_SECOND(_held);
extern __typeof__(TWICE_FIRST(_outputs)) TWICE_SECOND(_outputs), TWICE_SECOND(_offer);
extern __typeof__(TWICE_FIRST(_terms)) TWICE_SECOND(_terms);
extern __typeof__(TWICE_FIRST(_age)) TWICE_SECOND(_age);
#ifdef __cplusplus
}
#endif

/* A channel: an end, and what its last step wrote. */
typedef struct TWICE(_channel) {
    TWICE_FIRST(_memory) memory;
    TWICE_FIRST() end;
    gp_frame out;
    gp_did did;
} TWICE(_channel);

typedef struct TWICE(_memory) {
    TWICE(_channel) first, second;
    uint16_t outputs_len;
} TWICE(_memory);

typedef struct TWICE_HANDLE {
    TWICE(_memory) * memory;
    uint32_t mode;
} TWICE_HANDLE;

/* Before init: sets both handles, if no end is there. */
static inline uint8_t TWICE(_prepare)(TWICE_HANDLE *at) {
    TWICE(_memory) *const both = at->memory;
    if (at->mode == TWICE_RUNS) return GP_BUSY;
    if (at->mode != TWICE_NEW) return twice_halt(&at->mode);
    if (both == NULL) return GP_NO_ROOM;
    if (gp_version() != GP_VERSION || twin_gp_version() != GP_VERSION) return twice_halt(&at->mode);
    memset(both, 0, sizeof *both);
    both->first.end.memory = &both->first.memory;
    both->second.end.memory = &both->second.memory;
    return GP_OK;
}

/* After init. */
static inline uint8_t TWICE(_begin)(TWICE_HANDLE *at, uint8_t answer, uint16_t outputs_len) {
    if (answer != GP_OK) return answer;
    at->memory->outputs_len = outputs_len;
    at->mode = TWICE_RUNS;
    return GP_OK;
}

/* Stops both channels for good, as a difference does: for a fault that the program found by itself. */
static inline void TWICE(_stop)(TWICE_HANDLE *at) {
    (void)twice_halt(&at->mode);
}

static inline uint8_t TWICE(_end)(TWICE_HANDLE *at) {
    const uint8_t answer =
        TWICE_BOTH(TWICE_FIRST(_end)(&at->memory->first.end), TWICE_SECOND(_end)(&at->memory->second.end));
    if (answer == GP_OK) at->mode = TWICE_NEW;
    return answer;
}

/* Readers */

TWICE_NUMBER(_state, uint8_t)
TWICE_NUMBER(_held, uint8_t)
TWICE_NUMBER(_age, uint16_t)
TWICE_BYTES(_outputs)
TWICE_BYTES(_offer)

TWICE_CALL TWICE(_terms)(TWICE_HANDLE *at, gp_terms *terms) {
    gp_terms first, second;
    memset(&first, 0, sizeof first);
    memset(&second, 0, sizeof second);
    const uint8_t answer = TWICE_BOTH(TWICE_FIRST(_terms)(&at->memory->first.end, &first),
                                      TWICE_SECOND(_terms)(&at->memory->second.end, &second));
    const size_t app_len = first.app_len < GP_MOST_APP ? first.app_len : GP_MOST_APP;
    return twice_read(&at->mode, answer, &first, &second, terms, offsetof(gp_terms, app) + app_len);
}

/* Steps */

/* Compares last what leaves: no channel runs between this and the copy. */
static inline bool TWICE(_agree)(TWICE_HANDLE *at) {
    const TWICE(_channel) *const first = &at->memory->first, *const second = &at->memory->second;
    uint8_t state = 0, outputs[GP_MOST_DATA + 1] = {0};
    uint16_t age = 0;
    return TWICE(_state)(at, &state) == GP_OK && TWICE(_age)(at, &age) == GP_OK &&
           at->memory->outputs_len < sizeof outputs && TWICE(_outputs)(at, outputs, at->memory->outputs_len) == GP_OK &&
           twice_equal_frames(&first->out, &second->out) && twice_equal_did(&first->did, &second->did);
}

/* Gives what both channels did, or nothing once they differed. */
static inline uint8_t TWICE(_stepped)(TWICE_HANDLE *at, uint8_t answer, gp_frame *out, gp_did *did) {
    if (answer == GP_OK && !TWICE(_agree)(at)) answer = twice_halt(&at->mode);
    if (answer == GP_OK && out != NULL) twice_give_frame(out, &at->memory->first.out);
    if (answer == GP_OK && did != NULL) twice_give_did(did, &at->memory->first.did);
    if (answer == TWICE_STOPPED && out != NULL) out->len = 0;
    if (answer == TWICE_STOPPED && did != NULL) memset(did, 0, sizeof *did);
    return answer;
}

TWICE_CALL TWICE(_deliver)(TWICE_HANDLE *at, const uint8_t *frame, size_t frame_len, gp_frame *out, gp_did *did) {
    TWICE(_memory) *const both = at->memory;
    return TWICE(_stepped)(
        at,
        TWICE_BOTH(TWICE_FIRST(_deliver)(&both->first.end, frame, frame_len, &both->first.out, &both->first.did),
                   TWICE_SECOND(_deliver)(&both->second.end, frame, frame_len, &both->second.out, &both->second.did)),
        out, did);
}

TWICE_CALL TWICE(_tick)(TWICE_HANDLE *at, gp_frame *out, gp_did *did) {
    TWICE(_memory) *const both = at->memory;
    return TWICE(_stepped)(at,
                           TWICE_BOTH(TWICE_FIRST(_tick)(&both->first.end, &both->first.out, &both->first.did),
                                      TWICE_SECOND(_tick)(&both->second.end, &both->second.out, &both->second.did)),
                           out, did);
}

TWICE_CALL TWICE(_reset)(TWICE_HANDLE *at, gp_frame *out, gp_did *did) {
    TWICE(_memory) *const both = at->memory;
    return TWICE(_stepped)(at,
                           TWICE_BOTH(TWICE_FIRST(_reset)(&both->first.end, &both->first.out, &both->first.did),
                                      TWICE_SECOND(_reset)(&both->second.end, &both->second.out, &both->second.did)),
                           out, did);
}

/* Settings of what is sent */

TWICE_CALL TWICE(_put)(TWICE_HANDLE *at, const uint8_t *load, size_t load_len) {
    return TWICE_BOTH(TWICE_FIRST(_put)(&at->memory->first.end, load, load_len),
                      TWICE_SECOND(_put)(&at->memory->second.end, load, load_len));
}

TWICE_CALL TWICE(_hold)(TWICE_HANDLE *at, bool failsafe) {
    return TWICE_BOTH(TWICE_FIRST(_hold)(&at->memory->first.end, failsafe),
                      TWICE_SECOND(_hold)(&at->memory->second.end, failsafe));
}

TWICE_CALL TWICE(_nonce)(TWICE_HANDLE *at, uint32_t id) {
    return TWICE_BOTH(TWICE_FIRST(_nonce)(&at->memory->first.end, id),
                      TWICE_SECOND(_nonce)(&at->memory->second.end, id));
}
