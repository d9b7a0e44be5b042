/* Loaded before a program (LD_PRELOAD), it refuses allocations of the C library, and fails or cuts reads and
   writes. The environment says which:

     REFUSE=N        the Nth malloc, calloc or realloc finds no memory
     REFUSE_ON=1     and neither does any after it; where calls are told, any in the same call
     FAIL_READ=N     the Nth read fails
     FAIL_WRITE=N    the Nth write on standard output fails
     FAILURE=HOW     how it fails: with EINTR where this is "interrupted"; a write takes nothing where it is
                     "nothing"; else with EIO
     CUT_READS=1     a read gives one byte at most
     CUT_WRITES=1    a write on standard output takes one byte at most
     TOLD_CALLS=1    allocations count only from a write that begins with "call " to the next that begins
                     with "returned "; else all of them count
     COUNTS=FILE     where to write at the end how many allocations there were, how many came before the
                     first read, how many were refused, how many reads there were, how many writes on
                     standard output, how many of those came before the end of standard input, and how many
                     bytes one read of standard input asked for at most

   A program that hasn't ended after twenty seconds is ended by SIGALRM. It needs the GNU C library, whose
   __libc_malloc and so on do the work. */
#include <errno.h>
#include <fcntl.h>
#include <stdio.h>
#include <stdlib.h>
#include <string.h>
#include <sys/syscall.h>
#include <unistd.h>

void *__libc_malloc(size_t size);
void *__libc_calloc(size_t count, size_t size);
void *__libc_realloc(void *old, size_t size);

enum failure { WITH_ERROR, INTERRUPTED, TAKES_NOTHING };

static unsigned long refuse, fail_read, fail_write;
static int refuse_on, cut_reads, cut_writes, told_calls;
static enum failure failure;

static unsigned long allocations, early_allocations, refusals, reads, writes, early_writes, largest_read;
static int counting, input_ended;

static unsigned long number(const char *name)
{
    const char *text = getenv(name);
    return text ? strtoul(text, NULL, 10) : 0;
}

static enum failure asked_failure(void)
{
    const char *text = getenv("FAILURE");
    if (text && strcmp(text, "interrupted") == 0)
        return INTERRUPTED;
    if (text && strcmp(text, "nothing") == 0)
        return TAKES_NOTHING;
    return WITH_ERROR;
}

__attribute__((constructor)) static void begin(void)
{
    refuse = number("REFUSE");
    refuse_on = number("REFUSE_ON") == 1;
    fail_read = number("FAIL_READ");
    fail_write = number("FAIL_WRITE");
    failure = asked_failure();
    cut_reads = number("CUT_READS") == 1;
    cut_writes = number("CUT_WRITES") == 1;
    told_calls = number("TOLD_CALLS") == 1;
    counting = !told_calls;
    alarm(20);
}

__attribute__((destructor)) static void end(void)
{
    const char *name = getenv("COUNTS");
    char text[180];
    int file, length;
    counting = 0;
    if (!name)
        return;
    length = snprintf(text, sizeof text, "%lu %lu %lu %lu %lu %lu %lu\n", allocations, early_allocations, refusals,
                      reads, writes, early_writes, largest_read);
    file = open(name, O_WRONLY | O_CREAT | O_TRUNC, 0666);
    if (file < 0 || syscall(SYS_write, file, text, (size_t)length) != length)
        _exit(99);
    close(file);
}

/* Whether this allocation is refused. */
static int is_refused(void)
{
    if (!counting)
        return 0;
    allocations++;
    if (refuse == 0 || allocations < refuse || (allocations > refuse && !refuse_on))
        return 0;
    refusals++;
    errno = ENOMEM;
    return 1;
}

void *malloc(size_t size)
{
    return is_refused() ? NULL : __libc_malloc(size);
}

void *calloc(size_t count, size_t size)
{
    return is_refused() ? NULL : __libc_calloc(count, size);
}

void *realloc(void *old, size_t size)
{
    return is_refused() ? NULL : __libc_realloc(old, size);
}

static ssize_t fail(void)
{
    if (failure == TAKES_NOTHING)
        return 0;
    errno = failure == INTERRUPTED ? EINTR : EIO;
    return -1;
}

static size_t cut(int is_cut, size_t length)
{
    return is_cut && length > 1 ? 1 : length;
}

ssize_t read(int file, void *buffer, size_t length)
{
    ssize_t count;
    if (reads == 0)
        early_allocations = allocations;
    if (file == STDIN_FILENO && length > largest_read)
        largest_read = length;
    if (++reads == fail_read)
        return fail();
    count = syscall(SYS_read, file, buffer, cut(cut_reads, length));
    if (file == STDIN_FILENO && length > 0 && count == 0)
        input_ended = 1;
    return count;
}

static int begins_with(const char *text, size_t length, const char *start)
{
    return length >= strlen(start) && memcmp(text, start, strlen(start)) == 0;
}

/* From the name of a call that is told to what it returned, allocations count. No call after one that was
   refused an allocation is refused any. */
static void listen_to(const char *text, size_t length)
{
    if (begins_with(text, length, "call "))
        counting = 1;
    if (begins_with(text, length, "returned ")) {
        counting = 0;
        if (refusals > 0)
            refuse = 0;
    }
}

static ssize_t write_output(const void *buffer, size_t length)
{
    if (!input_ended)
        early_writes++;
    if (told_calls)
        listen_to(buffer, length);
    if (++writes == fail_write)
        return fail();
    return syscall(SYS_write, STDOUT_FILENO, buffer, cut(cut_writes, length));
}

ssize_t write(int file, const void *buffer, size_t length)
{
    return file == STDOUT_FILENO ? write_output(buffer, length) : syscall(SYS_write, file, buffer, length);
}

/* The same under the C library's other name for it. */
ssize_t __write(int file, const void *buffer, size_t length)
{
    return write(file, buffer, length);
}
