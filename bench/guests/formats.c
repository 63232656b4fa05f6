// The C library's formats, sorting and searching.
#include <stdio.h>
#include <stdlib.h>
#include <string.h>
#include "../../examples/guests/guest.h"

#define COUNT_OF_NAMES 200
#define ROUNDS 16

static char names[COUNT_OF_NAMES][24];
static const char *order[COUNT_OF_NAMES];

static int compare(const void *a, const void *b)
{
    return strcmp(*(const char *const *)a, *(const char *const *)b);
}

int main(void)
{
    u64 sum = 0;
    for (int round = 0; round < ROUNDS; round++) {
        for (int i = 0; i < COUNT_OF_NAMES; i++) {
            snprintf(names[i], sizeof names[i], "%05d-%x", (i * 7919 + round) % 10007, i * 31 + round);
            order[i] = names[i];
        }
        qsort(order, COUNT_OF_NAMES, sizeof order[0], compare);
        for (int i = 0; i < COUNT_OF_NAMES; i++)
            sum = fold(sum, (u64)strlen(order[i]) + (u64)order[i][3]);
    }
    put_number("sum", sum);
    return 0;
}
