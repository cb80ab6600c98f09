/* Refuses calls of the disk, for refusing.py: a program that is run with this library before the C library has one of
 * its readings, writings, syncs and changes of a length fail, or move one byte alone.
 *
 * The calls on files are counted, not those on the standard streams. FAIL_CALL=k has the k-th fail, once, as a disk
 * that has an error; SHORT_CALL=k has it move one byte, if it is one of several. How many there were stands in the file
 * that CALLS names, as a number of 64 bits. */
#define _GNU_SOURCE
#include <errno.h>
#include <fcntl.h>
#include <stdint.h>
#include <stdlib.h>
#include <sys/mman.h>
#include <sys/syscall.h>
#include <unistd.h>

static uint64_t own, *count = &own, fails, is_short;

static uint64_t word_of(const char *name)
{
    const char *word = getenv(name);
    return word ? strtoull(word, NULL, 10) : 0;
}

__attribute__((constructor)) static void begin(void)
{
    const char *name = getenv("CALLS");
    int file = name ? open(name, O_RDWR) : -1;
    fails = word_of("FAIL_CALL");
    is_short = word_of("SHORT_CALL");
    if (file < 0)
        return;
    void *page = mmap(NULL, sizeof *count, PROT_READ | PROT_WRITE, MAP_SHARED, file, 0);
    if (page != MAP_FAILED)
        count = page;
    close(file);
}

/* Whether this call fails. */
static int is_refused(int file)
{
    if (file <= 2 || ++*count != fails)
        return 0;
    errno = EIO;
    return 1;
}

/* How many bytes this call moves. */
static size_t moved(int file, size_t size)
{
    return file > 2 && *count == is_short && size > 1 ? 1 : size;
}

ssize_t pread64(int file, void *bytes, size_t size, off64_t at)
{
    return is_refused(file) ? -1 : syscall(SYS_pread64, file, bytes, moved(file, size), at);
}

ssize_t pwrite64(int file, const void *bytes, size_t size, off64_t at)
{
    return is_refused(file) ? -1 : syscall(SYS_pwrite64, file, bytes, moved(file, size), at);
}

ssize_t pread(int file, void *bytes, size_t size, off_t at) { return pread64(file, bytes, size, at); }

ssize_t pwrite(int file, const void *bytes, size_t size, off_t at) { return pwrite64(file, bytes, size, at); }

ssize_t read(int file, void *bytes, size_t size)
{
    return is_refused(file) ? -1 : syscall(SYS_read, file, bytes, moved(file, size));
}

ssize_t write(int file, const void *bytes, size_t size)
{
    return is_refused(file) ? -1 : syscall(SYS_write, file, bytes, moved(file, size));
}

int fsync(int file) { return is_refused(file) ? -1 : syscall(SYS_fsync, file); }

int fdatasync(int file) { return is_refused(file) ? -1 : syscall(SYS_fdatasync, file); }

int ftruncate64(int file, off64_t size) { return is_refused(file) ? -1 : syscall(SYS_ftruncate, file, size); }

int ftruncate(int file, off_t size) { return ftruncate64(file, size); }
