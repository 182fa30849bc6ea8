/* The sums of the columns of a CSV file of whole numbers. The first line of the body names the columns, and each line
 * behind it has as many numbers, between commas; a number may have a minus sign. The reply is a line `NAME,SUM` for
 * each column.
 *
 * A body of another form ends the function with 2, and a number or a sum that leaves 64 bits with 3.
 */
#include <stdlib.h>
#include <string.h>
#include <unistd.h>

#define MOST_COLUMNS 64
#define NOT_A_TABLE 2
#define TOO_LARGE 3

static char text[1 << 20];
static const char *names[MOST_COLUMNS];
static size_t lengths[MOST_COLUMNS];
static long long sums[MOST_COLUMNS];
static size_t columns;

/* Reads the whole body, and answers its end. */
static const char *read_body(void)
{
    size_t length = 0;
    ssize_t count;
    while ((count = read(0, text + length, sizeof text - length)) > 0)
        length += (size_t)count;
    return text + length;
}

static void write_reply(const char *bytes, size_t count)
{
    if (write(1, bytes, count) != (ssize_t)count)
        exit(1);
}

/* The end of the field that begins here: the comma or the line feed behind it. */
static const char *field_end(const char *at, const char *end)
{
    while (at < end && *at != ',' && *at != '\n')
        at++;
    if (at == end)
        exit(NOT_A_TABLE);
    return at;
}

/* The names of the columns; answers where the next line begins. */
static const char *read_names(const char *at, const char *end)
{
    for (;;) {
        const char *stop = field_end(at, end);
        if (columns == MOST_COLUMNS)
            exit(NOT_A_TABLE);
        names[columns] = at;
        lengths[columns++] = (size_t)(stop - at);
        at = stop + 1;
        if (*stop == '\n')
            return at;
    }
}

/* The number of a field. */
static long long number(const char *at, const char *stop)
{
    int negative = at < stop && *at == '-';
    long long value = 0;
    at += negative;
    if (at == stop)
        exit(NOT_A_TABLE);
    for (; at < stop; at++) {
        int digit = *at - '0';
        if (digit < 0 || digit > 9)
            exit(NOT_A_TABLE);
        if (__builtin_mul_overflow(value, 10, &value) || __builtin_sub_overflow(value, digit, &value))
            exit(TOO_LARGE);
    }
    if (!negative && __builtin_sub_overflow(0, value, &value))
        exit(TOO_LARGE);
    return value;
}

/* Adds the numbers of a line; answers where the next one begins. */
static const char *add_line(const char *at, const char *end)
{
    for (size_t column = 0; column < columns; column++) {
        const char *stop = field_end(at, end);
        if ((*stop == '\n') != (column + 1 == columns))
            exit(NOT_A_TABLE);
        if (__builtin_add_overflow(sums[column], number(at, stop), &sums[column]))
            exit(TOO_LARGE);
        at = stop + 1;
    }
    return at;
}

/* Writes `NAME,SUM` and a line feed. */
static void write_sum(size_t column)
{
    char digits[24], *at = digits + sizeof digits;
    unsigned long long rest = (unsigned long long)sums[column];
    if (sums[column] < 0)
        rest = 0 - rest;
    *--at = '\n';
    do
        *--at = (char)('0' + rest % 10);
    while ((rest /= 10) > 0);
    if (sums[column] < 0)
        *--at = '-';
    write_reply(names[column], lengths[column]);
    write_reply(",", 1);
    write_reply(at, (size_t)(digits + sizeof digits - at));
}

int main(void)
{
    const char *end = read_body(), *at = read_names(text, end);
    while (at < end)
        at = add_line(at, end);
    for (size_t column = 0; column < columns; column++)
        write_sum(column);
    return 0;
}
