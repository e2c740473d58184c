// The panel's C++ twin: one list, one pane, the same box.
#include <stdio.h>

#include "ovenlute.h"

int main() {
    static uint8_t screen[5 * 3];
    const uint16_t list[] = { 0x0074, 0, 0, 0, 4, 2, 0x0001 };  // LINE from (0, 0) to (4, 2), EODL
    ovenlute_made made = ovenlute_fresh(5, 3, ovenlute_pane{ 0, 0, 4, 2 });
    ovenlute_done done = ovenlute_run(list, sizeof list / sizeof *list, screen, sizeof screen, &made.env, 100);
    printf("%d, %s: steps %u\n", done.number, ovenlute_text(done.number).text, unsigned(done.steps));
    return done.number;
}
