// The services and their answers: what is refused, and what is written.
#include "guest.h"

static const char text[] = "written\n";

void _start(void)
{
    put_number("write", (u64)service(64, 1, (i64)text, 8));
    put_number("errors", (u64)service(64, 2, (i64)text, 8));
    put_number("part", (u64)service(64, 1, (i64)text + 3, 2));
    put_number("nothing", (u64)service(64, 1, (i64)text, 0));
    put_number("file", (u64)service(64, 1000, (i64)text, 8));
    put_number("place", (u64)service(64, 1, 0x10, 8));
    put_number("past", (u64)service(64, 1, -8, 8));
    put_number("unknown", (u64)service(1000, 1, 2, 3));
    put_number("unknown", (u64)service(-1, 1, 2, 3));
    leave(0);
}
