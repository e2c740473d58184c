#include "check.h"
#include "checked.h"
#include "count.h"
#include "libc.h"
#include "shrink.h"
#include "writers.h"

enum { DIFFERENCES_SHOWN = 3 };

static unsigned long long differences;

int is_shown(void)
{
    differences++;
    return differences <= DIFFERENCES_SHOWN;
}

unsigned long long differences_counted(void)
{
    return differences;
}

static void show_smallest(const struct call *call)
{
    static struct call smallest;

    copy_call(&smallest, call);
    shrink(&smallest);
    print_difference(&smallest);
}

void check_call(struct call *call, struct verdict *verdict)
{
    run_both(call, verdict);
    make_dots(call, &verdict->box.env, verdict->box.screen);
    compare_both(call, verdict);
    count_call(call, verdict->box.number, verdict->box.place);
    if (verdict->difference == NULL) {
        count_checked(call, &verdict->box, verdict->checked);
        count_writers(call, &verdict->box, verdict->writers);
    }
    if (verdict->difference != NULL && is_shown()) {
        show_smallest(call);
        judge(call, verdict);
    }
}

void go_on(struct call *call, const struct verdict *verdict)
{
    call->env = verdict->box.env;
    memcpy(call->screen, verdict->box.screen, call->bytes);
    call->kinds[ENVIRONMENTS] = ENV_CONTINUED;
}
