// A stack without a lock: LR and SC at its top. Each hart pushes its cells, and then pops as many and adds up their numbers.
#include "harts.h"

#define CELLS 50

typedef struct Cell {
    struct Cell *next;
    u64 number;
} Cell;

static Cell cells[32][CELLS];
static Cell *top;
static u64 sum;

static void push(Cell *cell)
{
    Cell *next;
    u64 failed;
    do {
        asm volatile("lr.d.aqrl %0, (%1)" : "=r"(next) : "r"(&top) : "memory");
        cell->next = next;
        asm volatile("sc.d.aqrl %0, %1, (%2)" : "=&r"(failed) : "r"(cell), "r"(&top) : "memory");
    } while (failed);
}

static Cell *pop(void)
{
    Cell *cell;
    u64 failed;
    do {
        asm volatile("lr.d.aqrl %0, (%1)" : "=r"(cell) : "r"(&top) : "memory");
        asm volatile("sc.d.aqrl %0, %1, (%2)" : "=&r"(failed) : "r"(cell->next), "r"(&top) : "memory");
    } while (failed);
    return cell;
}

void _start(u64 hart, u64 harts)
{
    for (u64 i = 0; i < CELLS; i++) {
        cells[hart][i].number = hart + 1;
        push(&cells[hart][i]);
    }
    for (u64 i = 0; i < CELLS; i++)
        __atomic_fetch_add(&sum, pop()->number, __ATOMIC_RELAXED);
    leave_last(harts, "sum", &sum);
}
