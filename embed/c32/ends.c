/*
 * The calls of gatepast.h on a machine of 32 bits, over the WebAssembly module that wasm2c wrote as C: embed/c32/make
 * fills in the rest. Each call copies the end into the module's memory, and back. So an end lies in the memory that the
 * program gave, as on 64 bits, and the module's memory keeps nothing from a call to the next.
 */
#include "gatepast.h"
#include "gatepast_module.h"
#include "gatepast_places.h"

enum { END = PLACES_END, WHOLE = END + GP_SLAVE_SIZE };

_Static_assert(GP_MASTER_SIZE <= GP_SLAVE_SIZE, "an end");

static uint8_t whole[WHOLE];
static Z_gatepast_instance_t module = {.w2c_g0 = @STACK@}; /* the stack pointer: all that calls without an end use */

static void begin(void) {
    if (memory != NULL) return;
    memory = whole;
    module.w2c_memory = (wasm_rt_memory_t){.data = whole, .size = WHOLE};
    Z_gatepast_init_module();
    Z_gatepast_instantiate(&module);
}

static void put_end(const void *end, size_t size, bool live) {
    begin();
    put_handle(end == NULL ? 0 : END, live);
    if (live) put(END, end, size);
}

static bool get_end(void *end, size_t size) {
    if (is_live()) get(end, END, size);
    return is_live();
}

@CALLS@
