/* Functions without results: without optimisation (-O0 -fno-pie) GCC puts a `nop` before their end. */
#include <stdio.h>

static int counter;

void step(int by)
{
    counter += by;
}

void climb(int *heights, int n)
{
    for (int i = 0; i < n; i++)
        heights[i] += counter;
}

int main(void)
{
    int heights[4] = {1, 2, 3, 4};
    step(5);
    climb(heights, 4);
    step(-2);
    climb(heights, 4);
    printf("%d %d %d %d\n", heights[0], heights[1], heights[2], heights[3]);
    return 0;
}
