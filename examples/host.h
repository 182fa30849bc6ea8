/* The calls of the host, for functions that stand on no library (WASI preview1).
 *
 * A function reads the body of its request from descriptor 0 and writes its reply to descriptor 1. Descriptor 2 takes
 * bytes too, and drops them.
 */
#ifndef HOST_H
#define HOST_H

typedef unsigned char u8;
typedef unsigned int u32;
typedef unsigned long long u64;
typedef long long i64;

/* A buffer: where it is in the memory, and how many bytes it has. */
struct iovec {
    const void *bytes;
    u32 count;
};

#define HOST(name) __attribute__((import_module("wasi_snapshot_preview1"), import_name(name)))

/* Lays the next bytes of the body in the buffers, as many as fit or are left, and stores how many. 0 is success. */
HOST("fd_read") u32 fd_read(u32 descriptor, const struct iovec *buffers, u32 how_many, u32 *count);

/* Adds the bytes of the buffers to the reply, and stores how many. 0 is success. */
HOST("fd_write") u32 fd_write(u32 descriptor, const struct iovec *buffers, u32 how_many, u32 *count);

/* Ends the function. With another code than 0 the reply is dropped, and the caller is told the code. */
HOST("proc_exit") _Noreturn void proc_exit(u32 code);

/* Reads the rest of the body, and answers how many bytes it has; with more than the room, the function ends with 1. */
static inline u32 read_body(void *bytes, u32 room)
{
    struct iovec buffer = {bytes, room};
    u8 more;
    struct iovec one = {&more, 1};
    u32 count, rest = 0;
    if (fd_read(0, &buffer, 1, &count) != 0)
        proc_exit(1);
    if (count == room && (fd_read(0, &one, 1, &rest) != 0 || rest != 0))
        proc_exit(1);
    return count;
}

/* Adds bytes to the reply; where it would have more than 65,536 bytes, the function ends with 1. */
static inline void write_reply(const void *bytes, u32 count)
{
    struct iovec buffer = {bytes, count};
    if (fd_write(1, &buffer, 1, &count) != 0)
        proc_exit(1);
}

/* Begins a function: what stands behind it in braces runs once for each request. */
#define FUNCTION __attribute__((export_name("_start"))) void start(void)

#endif
