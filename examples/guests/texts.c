// The C library's texts, sorting and allocation. Ends with code 3.
#include <ctype.h>
#include <errno.h>
#include <limits.h>
#include <stdlib.h>
#include <string.h>
#include "guest.h"

static char heap[16384] __attribute__((aligned(16)));
static char *top = heap;

void *sbrk(ptrdiff_t more)
{
    char *old = top;
    if (more > heap + sizeof heap - top)
        return (void *)-1;
    top += more;
    return old;
}

static int order(const void *left, const void *right)
{
    return strcmp(*(char *const *)left, *(char *const *)right);
}

static const char sentence[] = "the quick brown fox jumps over the lazy dog while seven wizards mix jugs of ink";

int main(void)
{
    char *words[32];
    size_t count = 0;
    char *copy = malloc(sizeof sentence);
    strcpy(copy, sentence);
    for (char *word = strtok(copy, " "); word; word = strtok(NULL, " ")) {
        words[count] = malloc(strlen(word) + 1);
        strcpy(words[count++], word);
    }
    qsort(words, count, sizeof words[0], order);
    char *joined = calloc(1, 8);
    for (size_t i = 0; i < count; i++) {
        joined = realloc(joined, strlen(joined) + strlen(words[i]) + 2);
        words[i][0] = (char)toupper(words[i][0]);
        strcat(joined, words[i]);
        strcat(joined, "\n");
        free(words[i]);
    }
    put(joined);
    put_number("length", strlen(joined));
    put_number("place", (u64)(strstr(joined, "Lazy") - joined));
    put_number("number", (u64)strtol("-123456789", NULL, 10));
    put_number("number", strtoul("7fffffffffffffff", NULL, 16));
    errno = 0;
    put_number("range", (u64)strtol("99999999999999999999", NULL, 10));
    put_number("error", (u64)errno);
    memmove(joined + 3, joined, 20);
    put_number("compared", (u64)(memcmp(joined, joined + 3, 3) == 0));
    memset(joined, 'x', 5);
    joined[12] = '\n';
    joined[13] = 0;
    put(joined);
    div_t parts = div(-17, 5);
    put_number("quotient", (u64)(i64)parts.quot);
    put_number("rest", (u64)(i64)parts.rem);
    srand(1);
    u64 sum = 0;
    for (int i = 0; i < 20; i++)
        sum = fold(sum, (u64)rand());
    put_number("random", sum);
    free(joined);
    return 3;
}
