/* The mean of the body's bytes, as one may write it first. It is refused: it computes with floating point, and prints by a printf that
 * has floating point too. examples/mean is the mended one.
 */
#include <stdio.h>

static double mean(unsigned sum, unsigned count)
{
    return (double)sum / count;
}

int main(void)
{
    unsigned sum = 0, count = 0;
    for (int byte = getchar(); byte != EOF; byte = getchar()) {
        sum += byte;
        count++;
    }
    printf("%.2f\n", mean(sum, count));
    return 0;
}
