/* ovenlute_fresh and ovenlute_who for a machine that passes a large struct otherwise than x86-64 does: there the caller's room for one
   that comes back is the first argument, one that is given lies with the arguments, and the pane comes as two halves. */

#include "libc.h"
#include "ovenlute.h"

struct ovenlute_made *box_fresh(struct ovenlute_made *made, uint32_t width, uint32_t height, uint64_t first, uint64_t second);
struct ovenlute_writer box_who(const uint16_t *list, size_t words, struct ovenlute_env *env, uint32_t budget, struct ovenlute_dot dot);

struct ovenlute_made ovenlute_fresh(uint32_t width, uint32_t height, struct ovenlute_pane pane)
{
    struct ovenlute_made made;
    uint64_t halves[2];

    memcpy(halves, &pane, sizeof halves);
    box_fresh(&made, width, height, halves[0], halves[1]);
    return made;
}

struct ovenlute_writer ovenlute_who(const uint16_t *list, size_t words, struct ovenlute_env env, uint32_t budget,
                                    struct ovenlute_dot dot)
{
    return box_who(list, words, &env, budget, dot);
}
