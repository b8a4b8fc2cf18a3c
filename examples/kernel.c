/* A loop over integers. */
#include <stdio.h>

__attribute__((noinline)) long dot(const int *a, const int *b, int n)
{
    long sum = 0;
    for (int i = 0; i < n; i++)
        sum += (long)a[i] * b[i];
    return sum;
}

__attribute__((noinline)) unsigned bits(unsigned x)
{
    unsigned count = 0;
    while (x) {
        x &= x - 1;
        count++;
    }
    return count;
}

int main(void)
{
    int a[64], b[64];
    for (int i = 0; i < 64; i++) {
        a[i] = i * 3 - 7;
        b[i] = 11 - i;
    }
    printf("%ld %u\n", dot(a, b, 64), bits(0xf0f1u));
    return 0;
}
