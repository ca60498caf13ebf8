/* Stands under the built program (LD_PRELOAD) for refused_memory.py: it refuses one allocation, or fails one read of standard input or one write to
 * standard output, and can have each of them move few bytes. The environment names the call, counted from 1, or the number of bytes:
 *
 *   REFUSE_ALLOCATION  FAIL_READ  FAIL_WRITE      this call fails
 *   READ_PIECE  WRITE_PIECE                       no call moves more bytes
 *   COUNTS                                        a file of three whole numbers of 8 bytes: the allocations, the reads, the writes so far
 */
#define _GNU_SOURCE
#include <errno.h>
#include <fcntl.h>
#include <stddef.h>
#include <stdlib.h>
#include <sys/mman.h>
#include <sys/syscall.h>
#include <unistd.h>

extern void *__libc_malloc(size_t);
extern void *__libc_calloc(size_t, size_t);
extern void *__libc_realloc(void *, size_t);

static long own_counts[3];
static long *counts = own_counts;
static long allocation, failing_read, failing_write, read_piece, write_piece;

static long number(const char *name) {
    const char *text = getenv(name);
    return text ? atol(text) : 0;
}

__attribute__((constructor)) static void begin(void) {
    const char *path = getenv("COUNTS");
    int file = path ? open(path, O_RDWR) : -1;
    void *page = file < 0 ? MAP_FAILED : mmap(NULL, sizeof own_counts, PROT_READ | PROT_WRITE, MAP_SHARED, file, 0);
    if (file >= 0) close(file);
    if (page != MAP_FAILED) counts = page;
    allocation = number("REFUSE_ALLOCATION");
    failing_read = number("FAIL_READ");
    failing_write = number("FAIL_WRITE");
    read_piece = number("READ_PIECE");
    write_piece = number("WRITE_PIECE");
}

static int is_refused(void) {
    if (++counts[0] != allocation) return 0;
    errno = ENOMEM;
    return 1;
}

void *malloc(size_t size) { return is_refused() ? NULL : __libc_malloc(size); }
void *calloc(size_t count, size_t size) { return is_refused() ? NULL : __libc_calloc(count, size); }
void *realloc(void *old, size_t size) { return is_refused() ? NULL : __libc_realloc(old, size); }

static ssize_t moved(long call, int file, int stream, void *bytes, size_t size, long *count, long failing, long piece) {
    if (file == stream) {
        if (++*count == failing) {
            errno = EIO;
            return -1;
        }
        if (piece > 0 && size > (size_t)piece) size = (size_t)piece;
    }
    return syscall(call, file, bytes, size);
}

ssize_t read(int file, void *bytes, size_t size) { return moved(SYS_read, file, 0, bytes, size, &counts[1], failing_read, read_piece); }
ssize_t write(int file, const void *bytes, size_t size) { return moved(SYS_write, file, 1, (void *)bytes, size, &counts[2], failing_write, write_piece); }
ssize_t __read(int file, void *bytes, size_t size) { return read(file, bytes, size); }
ssize_t __write(int file, const void *bytes, size_t size) { return write(file, bytes, size); }
