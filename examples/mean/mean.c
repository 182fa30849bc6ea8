/* The mean of the body's bytes, to two places, in whole numbers. On an empty body it ends with code 2.
 *
 * It is linked with wasi-libc's printf without floating point, and with examples/stdio_stubs.c.
 */
#include <stdio.h>

int main(void)
{
    unsigned sum = 0, count = 0;
    for (int byte = getchar(); byte != EOF; byte = getchar()) {
        sum += byte;
        count++;
    }
    if (count == 0)
        return 2;
    unsigned long long hundredths = (sum * 100ull + count / 2) / count;
    printf("%llu.%02llu\n", hundredths / 100, hundredths % 100);
    return 0;
}
