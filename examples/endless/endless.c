/* Writes a reply, and then never ends: the budget stops it, and the caller gets `budget spent` in place of the reply. */
#include "../host.h"

static volatile u32 turns;

FUNCTION
{
    write_reply("nobody reads this\n", 18);
    for (;;)
        turns++;
}
