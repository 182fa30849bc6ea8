/* Answers with the SHA-256 of the body (FIPS 180-4), in hexadecimal, and a line feed.
 *
 * It reads a block at a time, so a body may be as long as the host lets it be, and the memory stays small.
 */
#include "../host.h"

#define BLOCK 64

static const u32 round_words[64] = {
    0x428a2f98, 0x71374491, 0xb5c0fbcf, 0xe9b5dba5, 0x3956c25b, 0x59f111f1, 0x923f82a4, 0xab1c5ed5,
    0xd807aa98, 0x12835b01, 0x243185be, 0x550c7dc3, 0x72be5d74, 0x80deb1fe, 0x9bdc06a7, 0xc19bf174,
    0xe49b69c1, 0xefbe4786, 0x0fc19dc6, 0x240ca1cc, 0x2de92c6f, 0x4a7484aa, 0x5cb0a9dc, 0x76f988da,
    0x983e5152, 0xa831c66d, 0xb00327c8, 0xbf597fc7, 0xc6e00bf3, 0xd5a79147, 0x06ca6351, 0x14292967,
    0x27b70a85, 0x2e1b2138, 0x4d2c6dfc, 0x53380d13, 0x650a7354, 0x766a0abb, 0x81c2c92e, 0x92722c85,
    0xa2bfe8a1, 0xa81a664b, 0xc24b8b70, 0xc76c51a3, 0xd192e819, 0xd6990624, 0xf40e3585, 0x106aa070,
    0x19a4c116, 0x1e376c08, 0x2748774c, 0x34b0bcb5, 0x391c0cb3, 0x4ed8aa4a, 0x5b9cca4f, 0x682e6ff3,
    0x748f82ee, 0x78a5636f, 0x84c87814, 0x8cc70208, 0x90befffa, 0xa4506ceb, 0xbef9a3f7, 0xc67178f2,
};

static u32 state[8] = {
    0x6a09e667, 0xbb67ae85, 0x3c6ef372, 0xa54ff53a, 0x510e527f, 0x9b05688c, 0x1f83d9ab, 0x5be0cd19,
};

static u32 rotated(u32 word, u32 by)
{
    return word >> by | word << (32 - by);
}

static u32 word_at(const u8 *at)
{
    return (u32)at[0] << 24 | (u32)at[1] << 16 | (u32)at[2] << 8 | at[3];
}

/* The 64 words of a block. */
static void expand(u32 words[64], const u8 *block)
{
    for (u32 i = 0; i < 16; i++)
        words[i] = word_at(block + 4 * i);
    for (u32 i = 16; i < 64; i++) {
        u32 early = words[i - 15], late = words[i - 2];
        u32 s0 = rotated(early, 7) ^ rotated(early, 18) ^ early >> 3;
        u32 s1 = rotated(late, 17) ^ rotated(late, 19) ^ late >> 10;
        words[i] = words[i - 16] + s0 + words[i - 7] + s1;
    }
}

/* Takes a block into the state. */
static void take(const u8 *block)
{
    u32 words[64], v[8];
    expand(words, block);
    for (u32 i = 0; i < 8; i++)
        v[i] = state[i];
    for (u32 i = 0; i < 64; i++) {
        u32 s1 = rotated(v[4], 6) ^ rotated(v[4], 11) ^ rotated(v[4], 25);
        u32 choice = (v[4] & v[5]) ^ (~v[4] & v[6]);
        u32 first = v[7] + s1 + choice + round_words[i] + words[i];
        u32 s0 = rotated(v[0], 2) ^ rotated(v[0], 13) ^ rotated(v[0], 22);
        u32 majority = (v[0] & v[1]) ^ (v[0] & v[2]) ^ (v[1] & v[2]);
        v[7] = v[6], v[6] = v[5], v[5] = v[4], v[4] = v[3] + first;
        v[3] = v[2], v[2] = v[1], v[1] = v[0], v[0] = first + s0 + majority;
    }
    for (u32 i = 0; i < 8; i++)
        state[i] += v[i];
}

/* Reads up to a whole block, and answers how many bytes there were: fewer than a block only at the end. */
static u32 next_block(u8 *block)
{
    struct iovec buffer = {block, BLOCK};
    u32 count;
    if (fd_read(0, &buffer, 1, &count) != 0)
        proc_exit(1);
    return count;
}

/* Takes the last bytes: a 1 bit, zeros, and the length of the whole body in bits, in one block or two. */
static void finish(u8 *block, u32 count, u64 bits)
{
    block[count++] = 0x80;
    if (count > BLOCK - 8) {
        while (count < BLOCK)
            block[count++] = 0;
        take(block);
        count = 0;
    }
    while (count < BLOCK - 8)
        block[count++] = 0;
    for (u32 i = 0; i < 8; i++)
        block[BLOCK - 1 - i] = (u8)(bits >> 8 * i);
    take(block);
}

FUNCTION
{
    static const char digits[] = "0123456789abcdef";
    u8 block[BLOCK];
    char text[65];
    u64 bits = 0;
    u32 count;
    while ((count = next_block(block)) == BLOCK) {
        bits += 8 * BLOCK;
        take(block);
    }
    finish(block, count, bits + 8 * count);
    for (u32 i = 0; i < 64; i++)
        text[i] = digits[state[i / 8] >> (28 - 4 * (i % 8)) & 15];
    text[64] = '\n';
    write_reply(text, sizeof text);
}
