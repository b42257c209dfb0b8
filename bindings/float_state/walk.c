/* Walks one box whose mark hangs on denormals, for `check`:
 *
 *   walk state     prints `default` where the float state is the default one, and `other` where it is not
 *   walk plain     writes the bytes of the table, computed in the state that is found
 *   walk guarded   writes them, computed in the default state
 *
 * The exit status is 1 where a call or a write fails, or where the guard does not leave the state as it was.
 */
#include "gyroid.h"

#include <stdio.h>
#include <string.h>

/* `10240 1 0 0 0 0 0 20480 -256 256 1280 8960 0 1440 9280 320 0`, as the program `cells` reads and walks it. */
static const int64_t description[GYROID_DESCRIPTION] = {10240, 0, 1, 0, 0, 0, 0, 0, 20480, -256, 256, 1};
static const int64_t bounds[6] = {1280, 8960, 0, 1440, 9280, 320};
static const uint32_t rule = GYROID_TIES_TO_LOWEST_AXIS;

/* Whether the table is written. */
static int plain(uint8_t *table, size_t length) {
    return gyroid_walk(description, GYROID_DESCRIPTION, bounds, 6, 0, rule, table, length) == GYROID_FOUND;
}

/* The same, in the default state; and whether that was set and the state left as it was. */
static int guarded(uint8_t *table, size_t length) {
    const uint32_t found = gyroid_float_state_enter();
    const int set = gyroid_float_state_is_default();
    const int written = plain(table, length);
    gyroid_float_state_leave(found);
    return set && written && gyroid_float_state() == found;
}

int main(int words, char **word) {
    const char *asked = words == 2 ? word[1] : "";
    uint8_t table[4 * GYROID_SLOT];
    int written = 0;
    if (strcmp(asked, "state") == 0) {
        return puts(gyroid_float_state_is_default() ? "default" : "other") < 0;
    }
    if (strcmp(asked, "plain") == 0) {
        written = plain(table, sizeof table);
    }
    if (strcmp(asked, "guarded") == 0) {
        written = guarded(table, sizeof table);
    }
    return !written || fwrite(table, sizeof table, 1, stdout) != 1;
}
