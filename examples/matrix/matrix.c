/* A power of a matrix of whole numbers, modulo 1,000,000,007. The body is numbers with blanks and line feeds between
 * them: how many rows and columns the matrix has (1 to 64), the exponent, and the rows. The reply is the rows of the
 * power. With the matrix 1 1 / 1 0, for example, it has the Fibonacci numbers.
 *
 * A body of another form ends the function with 2.
 */
#include "../host.h"

#define MOST 64
#define PRIME 1000000007u

typedef u32 matrix[MOST][MOST];

static u8 text[1 << 16];
static matrix base, power, product;
static u32 size;

/* The next number of the body, below 2^32. */
static u32 read_number(u32 *at, u32 end)
{
    u64 value = 0;
    while (*at < end && (text[*at] == ' ' || text[*at] == '\n'))
        (*at)++;
    if (*at == end)
        proc_exit(2);
    while (*at < end && text[*at] != ' ' && text[*at] != '\n') {
        u32 digit = text[(*at)++] - '0';
        value = 10 * value + digit;
        if (digit > 9 || value >> 32 != 0)
            proc_exit(2);
    }
    return (u32)value;
}

/* left * right, in place of left. */
static void multiply(matrix left, matrix right)
{
    for (u32 row = 0; row < size; row++)
        for (u32 column = 0; column < size; column++) {
            u64 sum = 0;
            for (u32 i = 0; i < size; i++)
                sum = (sum + (u64)left[row][i] * right[i][column]) % PRIME;
            product[row][column] = (u32)sum;
        }
    for (u32 row = 0; row < size; row++)
        for (u32 column = 0; column < size; column++)
            left[row][column] = product[row][column];
}

static u32 write_number(u8 *at, u32 value)
{
    u32 digits = 1;
    for (u32 rest = value; rest >= 10; rest /= 10)
        digits++;
    for (u32 place = digits; place > 0; place--, value /= 10)
        at[place - 1] = (u8)('0' + value % 10);
    return digits;
}

static void write_matrix(void)
{
    u32 count = 0;
    for (u32 row = 0; row < size; row++)
        for (u32 column = 0; column < size; column++) {
            count += write_number(text + count, power[row][column]);
            text[count++] = column + 1 < size ? ' ' : '\n';
        }
    write_reply(text, count);
}

FUNCTION
{
    u32 end = read_body(text, sizeof text), at = 0;
    size = read_number(&at, end);
    if (size < 1 || size > MOST)
        proc_exit(2);
    u32 exponent = read_number(&at, end);
    for (u32 row = 0; row < size; row++) {
        power[row][row] = 1;
        for (u32 column = 0; column < size; column++)
            base[row][column] = read_number(&at, end) % PRIME;
    }
    for (; exponent > 0; exponent >>= 1) {
        if (exponent & 1)
            multiply(power, base);
        if (exponent > 1)
            multiply(base, base);
    }
    write_matrix();
}
