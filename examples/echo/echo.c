/* Answers with the body of the request as it is, as far as a reply has room (65,536 bytes).
 *
 * It stands on no library and no header: it has its own `_start`, and takes the calls of the host by attributes.
 */

/* A buffer: where it is in the memory, and how many bytes it has. */
struct iovec {
    const void *bytes;
    unsigned count;
};

#define HOST(name) __attribute__((import_module("wasi_snapshot_preview1"), import_name(name)))

HOST("fd_read") unsigned fd_read(unsigned descriptor, const struct iovec *buffers, unsigned how_many, unsigned *count);
HOST("fd_write") unsigned fd_write(unsigned descriptor, const struct iovec *buffers, unsigned how_many, unsigned *count);

static unsigned char bytes[4096];

__attribute__((export_name("_start"))) void start(void)
{
    for (;;) {
        struct iovec buffer = {bytes, sizeof bytes};
        if (fd_read(0, &buffer, 1, &buffer.count) != 0 || buffer.count == 0)
            return;
        if (fd_write(1, &buffer, 1, &buffer.count) != 0)
            return;
    }
}
