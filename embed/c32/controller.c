/*
 * The calls of gatepast_controller.h on a machine of 32 bits, over the WebAssembly module that wasm2c wrote as C:
 * embed/c32/make fills in the rest. The region of a controller is the memory of a module of its own: first what the
 * module uses, then places, the controller, and what it lists. So nothing of a controller is copied.
 */
#include "gatepast_controller.h"
#include "gatepast_controller_module.h"
#include "gatepast_controller_places.h"

typedef Z_gatepast_controller_instance_t instance;

enum { CONTROLLER = PLACES_END, REGION = CONTROLLER + (GP_CONTROLLER_SIZE + 15) / 16 * 16 };

_Static_assert(REGION == GP_MODULE_UNITS * sizeof(gp_unit) && sizeof(instance) <= GP_CONTROLLER_SIZE, "a region");

/* That of the call's controller, whose memory keeps it. Calls without a controller use the stack pointer alone. */
static instance module = {.w2c_g0 = @STACK@};

static void begin(const gp_controller *controller) {
    memcpy(&module, controller->memory, sizeof module);
    memory = module.w2c_memory.data;
}

static void make(const gp_controller *controller, gp_unit *region, size_t size) {
    memory = region->bytes;
    memset(memory, 0, REGION);
    module = (instance){.w2c_memory = {.data = memory, .size = size}};
    Z_gatepast_controller_init_module();
    Z_gatepast_controller_instantiate(&module);
    memcpy(controller->memory, &module, sizeof module);
    put_handle(CONTROLLER, false);
}

uint8_t gp_controller_open(gp_controller *controller, gp_unit *region, size_t size, const gp_most *most) {
    if (controller->live) return GP_BUSY;
    if (controller->memory == NULL) return GP_NO_ROOM;
    if (size < REGION) return GP_NO_MEMORY;
    make(controller, region, size);
    put(PLACE(3), most, sizeof *most);
    const uint64_t room = size - REGION;
    const uint8_t answer =
        (uint8_t)Z_gatepast_controllerZ_gp_controller_open(&module, HANDLE, REGION, room, PLACE(3));
    controller->live = is_live();
    return answer;
}

@CALLS@
