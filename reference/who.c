/*
 * 02's T-08 in plain C: who painted this dot. The list is run on a screen of its own, and every pixel that is painted gets the
 * number of its step in a record beside it. When the run is over, the record is looked at: no opcode is asked what it would paint.
 */

#include "afgis.h"
#include "numbers.h"
#include "record.h"

static uint8_t screen[MOST_SIDE * MOST_SIDE];
static struct record record;

static int is_at_door(int number)
{
    return BAD_SIZE <= number && number <= LARGE_BUDGET;
}

static void clear_record(size_t pixels)
{
    for (size_t i = 0; i < pixels; i++)
        record.steps[i] = 0;
}

/* What the record has of a dot. "A dot outside the screen is refused with 25." */
static struct afgis_writer look_up(const struct afgis_env *env, struct afgis_dot dot)
{
    size_t pixel;

    if (dot.x < 0 || dot.x >= (int64_t)env->width || dot.y < 0 || dot.y >= (int64_t)env->height)
        return (struct afgis_writer){ OUT_OF_RANGE, 0, 0, 0 };
    pixel = (size_t)dot.y * env->width + (size_t)dot.x;
    if (record.steps[pixel] == 0)
        return (struct afgis_writer){ 0, 0, 0, 0 };
    return (struct afgis_writer){ 0, screen[pixel], record.steps[pixel], record.opcodes[record.steps[pixel]] };
}

/* "A dot outside the screen is refused with 25, after 10, 12, 13 and 14; otherwise the number is 0. No screen is lent, so 11 isn't
   given": this one has as many bytes as it is to have. */
void afgis_who(const uint16_t *list, size_t words, const struct afgis_env *env, uint32_t budget, const struct afgis_dot *dots,
               size_t count, struct afgis_writer *writers)
{
    struct afgis_env own = *env;
    size_t pixels = (size_t)env->width * env->height;
    int number;

    if (pixels <= MOST_SIDE * MOST_SIDE)
        clear_record(pixels);
    number = run_recorded(list, words, screen, pixels, &own, budget, &record).number;
    for (size_t i = 0; i < count; i++)
        writers[i] = is_at_door(number) ? (struct afgis_writer){ number, 0, 0, 0 } : look_up(env, dots[i]);
}
