/* Refuses requests for memory, for the tests of tools/failures: a program that is run with this library before the C
 * library's own allocator tells it by sizes that no program gets which request is to fail.
 *
 *   2^40 + k bytes   the k-th request after this one is refused, once; k = 0 refuses none
 *   2^41 + k bytes   the k-th and all after it
 *   2^42 bytes       nothing more is refused
 *   2^43 bytes       granted where a request was refused since it was armed, and else refused
 *   2^44 + k bytes   of the requests that follow those above k bytes are refused, until 2^42
 *
 * The first three and the last are refused themselves. Requests are counted in all threads. A block that becomes
 * larger is a request, and so is one that becomes smaller.
 *
 * A program that knows nothing of this is told by its environment: REFUSE_AT=k refuses the k-th request of all,
 * REFUSE_ABOVE=k each above k bytes; FAIL_READ=k and FAIL_WRITE=k fail the k-th reading of the standard input or writing
 * to the standard output, once; SHORT_READ=n and SHORT_WRITE=n let each move at most n bytes. How many requests, refused
 * ones, readings and writings there were stands in the file that COUNTS names, as four numbers of 64 bits.
 */
#define _GNU_SOURCE
#include <stdatomic.h>
#include <stddef.h>
#include <stdlib.h>
#include <errno.h>
#include <fcntl.h>
#include <sys/mman.h>
#include <sys/syscall.h>
#include <unistd.h>

void *__libc_malloc(size_t size);
void *__libc_realloc(void *block, size_t size);
void *__libc_calloc(size_t count, size_t size);

static const size_t ONCE = (size_t)1 << 40;
static atomic_size_t first, last, largest = ~(size_t)0;

struct counts {
    atomic_size_t requests, refused, reads, writes;
};
static struct counts own, *counts = &own;

static void arm(size_t from, size_t to, size_t most)
{
    counts->requests = 0;
    counts->refused = 0;
    first = from;
    last = to;
    largest = most;
}

/* Whether a size is a word to this library; whether its request is granted stands in `granted`. */
static int is_told(size_t size, int *granted)
{
    *granted = 0;
    if (size < ONCE)
        return 0;
    size_t told = size & (ONCE - 1);
    switch (size >> 40) {
    case 1:
        arm(told, told, ~(size_t)0);
        return 1;
    case 2:
        arm(told, ~(size_t)0, ~(size_t)0);
        return 1;
    case 4:
        first = last = 0;
        largest = ~(size_t)0;
        return 1;
    case 8:
        *granted = counts->refused != 0;
        return 1;
    case 16:
        arm(0, 0, told);
        return 1;
    default:
        return 1;
    }
}

static int is_refused(size_t size)
{
    size_t place = ++counts->requests;
    if (size <= largest && (first == 0 || place < first || place > last))
        return 0;
    counts->refused++;
    errno = ENOMEM;
    return 1;
}

void *malloc(size_t size)
{
    int granted;
    if (is_told(size, &granted))
        return granted ? __libc_malloc(1) : NULL;
    return is_refused(size) ? NULL : __libc_malloc(size);
}

void *realloc(void *block, size_t size)
{
    return is_refused(size) ? NULL : __libc_realloc(block, size);
}

void *calloc(size_t many, size_t size)
{
    return __libc_calloc(many, size);
}

static size_t fail_read, fail_write, short_read, short_write;

static size_t word_of(const char *name)
{
    const char *word = getenv(name);
    return word ? strtoull(word, NULL, 10) : 0;
}

/* Has the counts stand in a file, if one is named. */
static void keep_counts(const char *name)
{
    int file = name ? open(name, O_RDWR) : -1;
    if (file < 0)
        return;
    void *page = mmap(NULL, sizeof *counts, PROT_READ | PROT_WRITE, MAP_SHARED, file, 0);
    if (page != MAP_FAILED)
        counts = page;
    close(file);
}

__attribute__((constructor)) static void begin(void)
{
    size_t at = word_of("REFUSE_AT"), most = word_of("REFUSE_ABOVE");
    fail_read = word_of("FAIL_READ");
    fail_write = word_of("FAIL_WRITE");
    short_read = word_of("SHORT_READ");
    short_write = word_of("SHORT_WRITE");
    keep_counts(getenv("COUNTS"));
    arm(at, at, most ? most : ~(size_t)0);
}

/* How many bytes a call moves; none where it fails. */
static size_t moved(int is_ours, atomic_size_t *calls, size_t fails, size_t most, size_t size)
{
    if (!is_ours)
        return size;
    if (++*calls == fails) {
        errno = EIO;
        return 0;
    }
    return most && size > most ? most : size;
}

ssize_t read(int file, void *bytes, size_t size)
{
    size_t may = moved(file == 0, &counts->reads, fail_read, short_read, size);
    return may || !size ? syscall(SYS_read, file, bytes, may) : -1;
}

ssize_t write(int file, const void *bytes, size_t size)
{
    size_t may = moved(file == 1, &counts->writes, fail_write, short_write, size);
    return may || !size ? syscall(SYS_write, file, bytes, may) : -1;
}
