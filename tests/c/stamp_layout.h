/* Size and offsets of the stamp, which both headers share. */
#include <assert.h>
#include <stddef.h>

#include "windrow_stamp.h"

static void check_stamp_layout(void)
{
    assert(sizeof(struct windrow_stamp) == 6);
    assert(offsetof(struct windrow_stamp, month) == 0);
    assert(offsetof(struct windrow_stamp, day) == 1);
    assert(offsetof(struct windrow_stamp, year) == 2);
    assert(offsetof(struct windrow_stamp, hour) == 3);
    assert(offsetof(struct windrow_stamp, minute) == 4);
    assert(offsetof(struct windrow_stamp, second) == 5);
}
