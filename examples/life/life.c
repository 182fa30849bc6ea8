/* Conway's game of life. The first line of the body is a number of generations, and the lines behind it are a board of
 * `#` (a cell that lives) and other letters, all of one length. The edges of the board are joined to those on the other
 * side. The reply is the board after so many generations.
 *
 * A body of another form ends the function with 2.
 */
#include "../host.h"

#define MOST_CELLS 65536

static u8 text[MOST_CELLS], cells[MOST_CELLS], next[MOST_CELLS];
static u32 width, height;

/* The number that a line begins with; `at` then stands behind the line feed. */
static u32 read_number(u32 *at, u32 end)
{
    u32 value = 0;
    while (*at < end && text[*at] >= '0' && text[*at] <= '9')
        value = 10 * value + text[(*at)++] - '0';
    if (*at == end || text[(*at)++] != '\n')
        proc_exit(2);
    return value;
}

/* The board from `at` on. */
static void read_board(u32 at, u32 end)
{
    while (at + width < end && text[at + width] != '\n')
        width++;
    height = width == 0 ? 0 : (end - at) / (width + 1);
    if (height == 0 || (end - at) % (width + 1) != 0)
        proc_exit(2);
    for (u32 row = 0; row < height; row++, at += width + 1) {
        for (u32 column = 0; column < width; column++)
            cells[row * width + column] = text[at + column] == '#';
        if (text[at + width] != '\n')
            proc_exit(2);
    }
}

/* How many of a cell and its eight neighbours live, in the columns of three rows. */
static u32 living(const u8 *above, const u8 *row, const u8 *below, u32 left, u32 column, u32 right)
{
    return above[left] + above[column] + above[right] + row[left] + row[column] + row[right] + below[left]
        + below[column] + below[right];
}

/* One generation. */
static void step(void)
{
    for (u32 y = 0; y < height; y++) {
        const u8 *above = cells + (y == 0 ? height - 1 : y - 1) * width;
        const u8 *row = cells + y * width;
        const u8 *below = cells + (y == height - 1 ? 0 : y + 1) * width;
        for (u32 x = 0; x < width; x++) {
            u32 count = living(above, row, below, x == 0 ? width - 1 : x - 1, x, x == width - 1 ? 0 : x + 1);
            next[y * width + x] = count == 3 || (count == 4 && row[x]);
        }
    }
    for (u32 i = 0; i < width * height; i++)
        cells[i] = next[i];
}

FUNCTION
{
    u32 end = read_body(text, sizeof text), at = 0;
    u32 generations = read_number(&at, end);
    read_board(at, end);
    while (generations-- > 0)
        step();
    for (u32 row = 0; row < height; row++, at += width + 1)
        for (u32 column = 0; column < width; column++)
            text[at + column] = cells[row * width + column] ? '#' : '.';
    write_reply(text + at - height * (width + 1), height * (width + 1));
}
