/* Picks a field out of a JSON document (RFC 8259). The first line of the body is the name of the field, as it stands between
 * its quotes, and behind it is an object. The reply is the value of its first member of this name, as it stands there, and a
 * line feed. Members of objects within it are passed over.
 *
 * With no such member the function ends with 4, and with a document that it can't follow with 2. It looks at no more
 * of the document than it has to: where strings, objects and arrays end.
 */
#include <stdlib.h>
#include <string.h>
#include <unistd.h>

#define CUT_OR_STRANGE 2
#define NO_SUCH_FIELD 4

static char text[1 << 20];
static const char *end;

static void read_body(void)
{
    size_t length = 0;
    ssize_t count;
    while ((count = read(0, text + length, sizeof text - length)) > 0)
        length += (size_t)count;
    end = text + length;
}

/* The letter here; a document has to go on. */
static char letter(const char *at)
{
    if (at >= end)
        exit(CUT_OR_STRANGE);
    return *at;
}

static int is_blank(char letter)
{
    return letter == ' ' || letter == '\t' || letter == '\r' || letter == '\n';
}

static const char *past_blanks(const char *at)
{
    while (at < end && is_blank(*at))
        at++;
    return at;
}

/* Behind this letter, which has to stand here, and blanks. */
static const char *past(const char *at, char wanted)
{
    if (letter(at) != wanted)
        exit(CUT_OR_STRANGE);
    return past_blanks(at + 1);
}

/* At the quote that ends the string that begins here. */
static const char *string_end(const char *at)
{
    if (letter(at) != '"')
        exit(CUT_OR_STRANGE);
    for (at++; letter(at) != '"'; at++)
        at += *at == '\\';
    return at;
}

/* At the comma or the bracket behind the value that begins here. */
static const char *value_end(const char *at)
{
    for (size_t depth = 0;; at++) {
        switch (letter(at)) {
        case '"':
            at = string_end(at);
            break;
        case '{':
        case '[':
            depth++;
            break;
        case '}':
        case ']':
            if (depth-- == 0)
                return at;
            break;
        case ',':
            if (depth == 0)
                return at;
            break;
        }
    }
}

/* Answers with a value, without the blanks behind it. */
static int answer(char *value, const char *stop)
{
    size_t count = (size_t)(stop - value);
    while (count > 0 && is_blank(value[count - 1]))
        count--;
    value[count++] = '\n';
    return write(1, value, count) == (ssize_t)count ? 0 : 1;
}

int main(void)
{
    read_body();
    const char *line_feed = memchr(text, '\n', (size_t)(end - text));
    if (line_feed == NULL)
        return CUT_OR_STRANGE;
    size_t length = (size_t)(line_feed - text);
    const char *at = past(past_blanks(line_feed), '{');
    while (letter(at) != '}') {
        const char *name = at + 1, *name_end = string_end(at);
        const char *value = past(past_blanks(name_end + 1), ':');
        at = value_end(value);
        if ((size_t)(name_end - name) == length && memcmp(name, text, length) == 0)
            return answer(text + (value - text), at);
        if (*at == ',')
            at = past(at, ',');
    }
    return NO_SUCH_FIELD;
}
