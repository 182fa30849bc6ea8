/* Numbers the lines of a text, as `nl` and `cat -n` do, and drops blanks, tabs and carriage returns at their ends.
 *
 * It uses the C library for what needs no more than the host's three calls: `read`, `write`, memory and strings.
 */
#include <stdlib.h>
#include <string.h>
#include <unistd.h>

#define CHUNK 4096
#define DIGITS 6

/* A text that grows. */
struct text {
    char *bytes;
    size_t length, room;
};

/* Makes room for more bytes, and answers where they go. */
static char *room_for(struct text *text, size_t more)
{
    if (text->room - text->length < more) {
        text->room = 2 * text->room + more;
        text->bytes = realloc(text->bytes, text->room);
        if (text->bytes == NULL)
            exit(1);
    }
    return text->bytes + text->length;
}

static void append(struct text *text, const char *bytes, size_t count)
{
    memcpy(room_for(text, count), bytes, count);
    text->length += count;
}

static struct text read_body(void)
{
    struct text body = {NULL, 0, 0};
    ssize_t count;
    while ((count = read(0, room_for(&body, CHUNK), CHUNK)) > 0)
        body.length += (size_t)count;
    return body;
}

/* Appends the number, right in its columns, and two blanks. */
static void append_number(struct text *out, unsigned number)
{
    char digits[DIGITS + 2];
    memset(digits, ' ', sizeof digits);
    for (int at = DIGITS - 1; at >= 0 && (number > 0); at--, number /= 10)
        digits[at] = (char)('0' + number % 10);
    append(out, digits, sizeof digits);
}

/* How many bytes the line has without the blanks at its end. */
static size_t trimmed(const char *line, size_t length)
{
    while (length > 0 && memchr(" \t\r", line[length - 1], 3) != NULL)
        length--;
    return length;
}

int main(void)
{
    struct text body = read_body(), out = {NULL, 0, 0};
    const char *line = body.bytes, *end = body.bytes + body.length;
    for (unsigned number = 1; line < end; number++) {
        const char *stop = memchr(line, '\n', (size_t)(end - line));
        if (stop == NULL)
            stop = end;
        append_number(&out, number);
        append(&out, line, trimmed(line, (size_t)(stop - line)));
        append(&out, "\n", 1);
        line = stop + 1;
    }
    return write(1, out.bytes, out.length) == (ssize_t)out.length ? 0 : 1;
}
