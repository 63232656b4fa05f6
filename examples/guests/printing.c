// The C library's formats, over a stream of its own.
#include <stdio.h>
#include <string.h>
#include "guest.h"

static char line[256];
static size_t used;

static void flush(void)
{
    for (size_t done = 0; done < used;)
        done += (size_t)service(64, 1, (i64)line + (i64)done, (i64)(used - done));
    used = 0;
}

static int put_byte(char byte, FILE *stream)
{
    (void)stream;
    line[used++] = byte;
    if (byte == '\n' || used == sizeof line)
        flush();
    return 0;
}

static FILE output = FDEV_SETUP_STREAM(put_byte, NULL, NULL, _FDEV_SETUP_WRITE);
FILE *const stdout = &output;

int main(void)
{
    static const long numbers[] = {0, 1, -1, 42, -1234567, 2147483647, -2147483647L - 1, 9223372036854775807L};
    for (size_t i = 0; i < COUNT(numbers); i++)
        printf("%ld|%12ld|%-12ld|%+ld|%lx|%#lo|%016lX\n", numbers[i], numbers[i], numbers[i], numbers[i],
               (unsigned long)numbers[i], (unsigned long)numbers[i], (unsigned long)numbers[i]);
    printf("%s|%10s|%-10s|%.3s|%c|%%\n", "text", "right", "left", "shortened", 'c');
    for (int width = 1; width < 6; width++)
        printf("%*d|%-*d|%0*d\n", width, 123, width, -4, width, 56);
    char text[64];
    int length = snprintf(text, sizeof text, "%hhd %hd %u %p", (signed char)-3, (short)-300, 4000000000u,
                          (void *)0x1234);
    printf("%d bytes: %s (%lu)\n", length, text, (unsigned long)strlen(text));
    int day = 0, year = 0;
    char name[16];
    length = sscanf("31 December 2024", "%d %15s %d", &day, name, &year);
    printf("%d read: %d-%s-%d\n", length, year, name, day);
    return 0;
}
