// Writes 10,000 bytes from one buffer. A call may write fewer bytes than it was given, so four calls are made,
// each from where the one before it ended; the number of steps doesn't depend on the counts.
#include "guest.h"

static char text[10000];

void _start(void)
{
    u64 written = 0;
    for (u64 i = 0; i < sizeof text; i++)
        text[i] = i % 50 == 49 ? '\n' : (char)('!' + i % 93);
    for (int call = 0; call < 4; call++)
        written += (u64)service(64, 1, (i64)text + (i64)written, (i64)(sizeof text - written));
    leave((i64)(sizeof text - written));
}
