/* Sizes and offsets of every struct of include/ovenlute.h, as the box lays them out. */

#include "ovenlute.h"

_Static_assert(sizeof(struct ovenlute_pane) == 16, "pane");
_Static_assert(offsetof(struct ovenlute_pane, left) == 0, "pane.left");
_Static_assert(offsetof(struct ovenlute_pane, top) == 4, "pane.top");
_Static_assert(offsetof(struct ovenlute_pane, right) == 8, "pane.right");
_Static_assert(offsetof(struct ovenlute_pane, bottom) == 12, "pane.bottom");

_Static_assert(sizeof(struct ovenlute_bounds) == 24, "bounds");
_Static_assert(offsetof(struct ovenlute_bounds, width) == 0, "bounds.width");
_Static_assert(offsetof(struct ovenlute_bounds, height) == 4, "bounds.height");
_Static_assert(offsetof(struct ovenlute_bounds, pane) == 8, "bounds.pane");

_Static_assert(sizeof(struct ovenlute_dot) == 8, "dot");
_Static_assert(offsetof(struct ovenlute_dot, x) == 0, "dot.x");
_Static_assert(offsetof(struct ovenlute_dot, y) == 4, "dot.y");

_Static_assert(sizeof(struct ovenlute_window) == 16, "window");
_Static_assert(offsetof(struct ovenlute_window, x0) == 0, "window.x0");
_Static_assert(offsetof(struct ovenlute_window, y0) == 4, "window.y0");
_Static_assert(offsetof(struct ovenlute_window, x1) == 8, "window.x1");
_Static_assert(offsetof(struct ovenlute_window, y1) == 12, "window.y1");

_Static_assert(sizeof(struct ovenlute_registers) == 64, "registers");
_Static_assert(offsetof(struct ovenlute_registers, position) == 0, "registers.position");
_Static_assert(offsetof(struct ovenlute_registers, origin) == 8, "registers.origin");
_Static_assert(offsetof(struct ovenlute_registers, window) == 16, "registers.window");
_Static_assert(offsetof(struct ovenlute_registers, mode) == 32, "registers.mode");
_Static_assert(offsetof(struct ovenlute_registers, pattern) == 36, "registers.pattern");
_Static_assert(offsetof(struct ovenlute_registers, first) == 40, "registers.first");
_Static_assert(offsetof(struct ovenlute_registers, second) == 44, "registers.second");
_Static_assert(offsetof(struct ovenlute_registers, counter) == 48, "registers.counter");
_Static_assert(offsetof(struct ovenlute_registers, depth) == 52, "registers.depth");
_Static_assert(offsetof(struct ovenlute_registers, place) == 56, "registers.place");
_Static_assert(offsetof(struct ovenlute_registers, colour) == 60, "registers.colour");
_Static_assert(offsetof(struct ovenlute_registers, state) == 61, "registers.state");

_Static_assert(sizeof(struct ovenlute_repeat) == 8, "repeat");
_Static_assert(offsetof(struct ovenlute_repeat, start) == 0, "repeat.start");
_Static_assert(offsetof(struct ovenlute_repeat, left) == 4, "repeat.left");

_Static_assert(sizeof(struct ovenlute_env) == 476, "env");
_Static_assert(offsetof(struct ovenlute_env, bounds) == 0, "env.bounds");
_Static_assert(offsetof(struct ovenlute_env, registers) == 24, "env.registers");
_Static_assert(offsetof(struct ovenlute_env, variables) == 88, "env.variables");
_Static_assert(offsetof(struct ovenlute_env, stack) == 344, "env.stack");
_Static_assert(offsetof(struct ovenlute_env, nesting) == 408, "env.nesting");
_Static_assert(offsetof(struct ovenlute_env, repeats) == 412, "env.repeats");

_Static_assert(sizeof(struct ovenlute_made) == 480, "made");
_Static_assert(offsetof(struct ovenlute_made, number) == 0, "made.number");
_Static_assert(offsetof(struct ovenlute_made, env) == 4, "made.env");

_Static_assert(sizeof(struct ovenlute_done) == 12, "done");
_Static_assert(offsetof(struct ovenlute_done, number) == 0, "done.number");
_Static_assert(offsetof(struct ovenlute_done, place) == 4, "done.place");
_Static_assert(offsetof(struct ovenlute_done, steps) == 8, "done.steps");

_Static_assert(sizeof(struct ovenlute_checked) == 12, "checked");
_Static_assert(offsetof(struct ovenlute_checked, number) == 0, "checked.number");
_Static_assert(offsetof(struct ovenlute_checked, place) == 4, "checked.place");
_Static_assert(offsetof(struct ovenlute_checked, steps) == 8, "checked.steps");

_Static_assert(sizeof(struct ovenlute_mended) == 8, "mended");
_Static_assert(offsetof(struct ovenlute_mended, number) == 0, "mended.number");
_Static_assert(offsetof(struct ovenlute_mended, changes) == 4, "mended.changes");

_Static_assert(sizeof(struct ovenlute_writer) == 12, "writer");
_Static_assert(offsetof(struct ovenlute_writer, number) == 0, "writer.number");
_Static_assert(offsetof(struct ovenlute_writer, colour) == 1, "writer.colour");
_Static_assert(offsetof(struct ovenlute_writer, step) == 4, "writer.step");
_Static_assert(offsetof(struct ovenlute_writer, opcode) == 8, "writer.opcode");

_Static_assert(sizeof(struct ovenlute_lit_dots) == 8, "lit_dots");
_Static_assert(offsetof(struct ovenlute_lit_dots, number) == 0, "lit_dots.number");
_Static_assert(offsetof(struct ovenlute_lit_dots, count) == 4, "lit_dots.count");

_Static_assert(sizeof(struct ovenlute_words) == 128, "words");
_Static_assert(offsetof(struct ovenlute_words, length) == 0, "words.length");
_Static_assert(offsetof(struct ovenlute_words, text) == 1, "words.text");

_Static_assert(OVENLUTE_VERSION == 6, "the version that these sizes and offsets are of");
