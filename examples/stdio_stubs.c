/* What <stdio.h> of wasi-libc asks the host for besides reading and writing, answered here: there are no files to close or to seek
 * in, and no descriptor is a terminal. A function that uses printf or getchar links it, and then imports nothing that is refused.
 *
 * The names are those that wasi-libc imports by, so the definitions stand in the place of the imports.
 */
enum { BAD_DESCRIPTOR = 8, NO_SEEKING = 70 };

#define IMPORTED(name) __imported_wasi_snapshot_preview1_##name

int IMPORTED(fd_close)(int descriptor)
{
    (void)descriptor;
    return 0;
}

int IMPORTED(fd_seek)(int descriptor, long long offset, int whence, int new_offset)
{
    (void)descriptor, (void)offset, (void)whence, (void)new_offset;
    return NO_SEEKING;
}

int IMPORTED(fd_fdstat_get)(int descriptor, int status)
{
    (void)descriptor, (void)status;
    return BAD_DESCRIPTOR;
}
