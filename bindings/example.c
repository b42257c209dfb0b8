/* Asks the mark of one box and the residual behind it, walks a box that is not settled, and asks for the areas of a
 * layer of it, in the float state that the proofs speak of. From the project's root:
 *
 *   .ci/build capi
 *   cc -I bindings bindings/example.c target/staticlib/libcapi.a -o example && ./example
 */
#include "gyroid.h"

#include <inttypes.h>
#include <stdio.h>

/* The 32 bits at a place of a table. */
static uint32_t number(const uint8_t *at) {
    return (uint32_t)at[0] | (uint32_t)at[1] << 8 | (uint32_t)at[2] << 16 | (uint32_t)at[3] << 24;
}

/* The 64 bits at a place of a report. */
static uint64_t area(const uint8_t *at) {
    return number(at) | (uint64_t)number(at + 4) << 32;
}

static int refused(uint32_t status) {
    printf("refused %" PRIu32 "\n", status);
    return 1;
}

static int ask(void) {
    /* A network of period 10 mm at the constant level 2, in the part frame. */
    const int64_t description[GYROID_DESCRIPTION] = {
        10240, GYROID_NETWORK, 0, 0, 0, 0, 0, 0, 0, 2048, 0, 1, 0, 0, 0, 0, 0, 0,
    };
    /* The lower half of a millimetre cube. */
    const double world[6] = {0.0, 0.5, 0.0, 1.0, 0.0, 1.0};
    int64_t state;
    double ends[2];

    uint32_t status = gyroid_box_state(description, GYROID_DESCRIPTION, world, 6, &state, 1);
    if (status != GYROID_FOUND) {
        return refused(status);
    }
    status = gyroid_residual(description, GYROID_DESCRIPTION, world, 6, ends, 2);
    if (status == GYROID_NONE) {
        printf("state %" PRId64 ", no residual\n", state);
    } else {
        printf("state %" PRId64 ", residual from %.17g to %.17g\n", state, ends[0], ends[1]);
    }

    /* The whole millimetre cube in ticks, halved once at most: across x, for a constant level has no grade axis. */
    const int64_t bounds[6] = {0, 0, 0, 1024, 1024, 1024};
    uint8_t table[64 * GYROID_SLOT];
    status = gyroid_walk(description, GYROID_DESCRIPTION, bounds, 6, 1, GYROID_TIES_TO_GRADE_AXIS, table, sizeof table);
    if (status != GYROID_FOUND) {
        return refused(status);
    }
    printf("%" PRIu32 " cells\n", number(table + 4));
    for (uint32_t slot = number(table); slot != 0; slot = number(table + slot * GYROID_SLOT)) {
        const uint8_t *cell = table + slot * GYROID_SLOT;
        printf("state %d, depth %d, x from %" PRId32 " to %" PRId32 "\n", cell[4], cell[5], (int32_t)number(cell + 8),
               (int32_t)number(cell + 20));
    }

    /* The lowest layer of its cells, in tick squares. */
    uint8_t report[GYROID_LAYER];
    status = gyroid_layers(table, sizeof table, 0, 1, report, sizeof report);
    if (status != GYROID_FOUND) {
        return refused(status);
    }
    printf("layer 0: inside %" PRIu64 ", outside %" PRIu64 ", unsettled %" PRIu64 "\n", area(report),
           area(report + 8), area(report + 16));
    return 0;
}

int main(void) {
    const uint32_t found = gyroid_float_state_enter();
    const int status = ask();
    gyroid_float_state_leave(found);
    return status;
}
