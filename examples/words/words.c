/* Counts the lines, the words and the bytes of the body, as `wc` does.
 *
 * It reads by getchar and writes by printf: it is linked with wasi-libc's printf without floating point, and with
 * examples/stdio_stubs.c.
 */
#include <ctype.h>
#include <stdio.h>

int main(void)
{
    unsigned lines = 0, words = 0, bytes = 0;
    int within = 0;
    for (int byte = getchar(); byte != EOF; byte = getchar()) {
        bytes++;
        lines += byte == '\n';
        words += !within && !isspace(byte);
        within = !isspace(byte);
    }
    printf("%u lines, %u words, %u bytes\n", lines, words, bytes);
    return 0;
}
