/*
 * What the archives say that they were made of, a line each. Memory of another length is refused, and nothing is written.
 */
#include <gatepast_controller.h>
#include <replay.h>
#include <stdio.h>
#include <stdlib.h>

typedef uint8_t build_call(uint8_t *text, size_t text_len);

/* Writes what this call writes, which refuses other lengths with this answer. */
static void tell(build_call *build, uint8_t refused) {
    uint8_t text[GP_BUILD_LENGTH + 1] = {0};
    if (build(text, GP_BUILD_LENGTH - 1) != refused || build(text, GP_BUILD_LENGTH + 1) != refused || text[0] != 0) exit(1);
    if (build(text, GP_BUILD_LENGTH) != 0 || text[GP_BUILD_LENGTH] != 0) exit(2);
    fwrite(text, 1, GP_BUILD_LENGTH, stdout);
}

int main(void) {
    tell(gp_build, GP_BAD_LENGTH);
    tell(gp_controller_build, GP_BAD_LENGTH);
    tell(gp_replay_build, GP_REPLAY_CUT);
    return 0;
}
