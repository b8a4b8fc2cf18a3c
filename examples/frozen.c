/* One function with inline assembly and one with floating point beside one of integers alone. */
#include <stdio.h>

__attribute__((noinline)) int barrier(int x)
{
    __asm__ volatile("nop" ::: "memory");
    return x + 1;
}

__attribute__((noinline)) double half(double x)
{
    return x / 2;
}

__attribute__((noinline)) int twice(int x)
{
    return x + x;
}

int main(void)
{
    printf("%d %g %d\n", barrier(4), half(3), twice(21));
    return 0;
}
