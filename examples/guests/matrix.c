// Products of matrices of words and of double words.
#include "guest.h"

#define SIZE 16

static u64 left[SIZE][SIZE], right[SIZE][SIZE], result[SIZE][SIZE];
static i32 words[3][SIZE][SIZE];

static u64 sum_of(u64 (*matrix)[SIZE])
{
    u64 sum = 0;
    for (int i = 0; i < SIZE; i++)
        for (int j = 0; j < SIZE; j++)
            sum = fold(sum, matrix[i][j]);
    return sum;
}

static void multiply(void)
{
    for (int i = 0; i < SIZE; i++)
        for (int j = 0; j < SIZE; j++) {
            u64 sum = 0;
            i32 word = 0;
            for (int k = 0; k < SIZE; k++) {
                sum += left[i][k] * right[k][j];
                word += words[0][i][k] * words[1][k][j];
            }
            result[i][j] = sum;
            words[2][i][j] = word;
        }
}

void _start(void)
{
    u64 seed = 3;
    for (int i = 0; i < SIZE; i++)
        for (int j = 0; j < SIZE; j++) {
            left[i][j] = seed *= 2862933555777941757ul;
            right[i][j] = seed ^= seed >> 29;
            words[0][i][j] = (i32)(seed >> 32);
            words[1][i][j] = (i32)seed;
        }
    multiply();
    put_number("double words", sum_of(result));
    u64 sum = 0;
    for (int i = 0; i < SIZE; i++)
        for (int j = 0; j < SIZE; j++)
            sum = fold(sum, (u64)(i64)words[2][i][j]);
    put_number("words", sum);
    leave(0);
}
