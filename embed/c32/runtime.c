/* What the C code of wasm2c needs, once in a program. */
#include "wasm-rt.h"

#include <stdlib.h>

uint32_t wasm_rt_call_stack_depth;

bool wasm_rt_is_initialized(void) {
    return true;
}

uint32_t wasm_rt_register_func_type(uint32_t params, uint32_t results, ...) {
    return params + results;
}

/* The calls gave the memory before. */
void wasm_rt_allocate_memory(wasm_rt_memory_t *of_module, uint32_t pages, uint32_t most) {
    (void)most;
    of_module->pages = of_module->max_pages = pages;
}

void wasm_rt_free_memory(wasm_rt_memory_t *of_module) {
    (void)of_module;
}

/* This would be a fault of the translation or of the machine: a device switches off here. */
void wasm_rt_trap(wasm_rt_trap_t why) {
    (void)why;
    abort();
}
