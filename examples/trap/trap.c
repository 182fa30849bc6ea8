/* The mean of the bytes of the body. There is none where the body is empty: then it traps, and the caller gets
 * `trap: unreachable`.
 */
#include "../host.h"

static u8 text[1 << 16];

FUNCTION
{
    u32 count = read_body(text, sizeof text), sum = 0;
    if (count == 0)
        __builtin_trap();
    for (u32 i = 0; i < count; i++)
        sum += text[i];
    u8 mean = (u8)(sum / count);
    write_reply(&mean, 1);
}
