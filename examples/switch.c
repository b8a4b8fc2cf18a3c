/* A switch that GCC compiles to a jump table (-O2 -fno-pic -fno-reorder-blocks-and-partition). */
#include <stdio.h>

__attribute__((noinline)) int weekday(int day, int base)
{
    switch (day) {
    case 0: return base * 3;
    case 1: return base - 7;
    case 2: return base ^ 21;
    case 3: return base + 400;
    case 4: return base / 3;
    case 5: return base << 2;
    case 6: return -base;
    default: return 0;
    }
}

int main(void)
{
    for (int day = -1; day < 8; day++)
        printf("%d\n", weekday(day, 100 + day));
    return 0;
}
