/* Refuses calls of a program that is loaded after this library (LD_PRELOAD), and counts them.
 *
 * Growths (malloc and realloc, by which the program takes all of its memory), reads, writes and openings of files count
 * from 1, each kind for itself, from the start of the program's own code. Writes to the standard error aren't counted,
 * and never fail.
 *
 *   REFUSE_GROWTH, REFUSE_READ, REFUSE_WRITE, REFUSE_OPENING   the number of the call that fails, once
 *   REFUSE_SIZE the size in bytes of growths that fail, each time
 *   INTERRUPT   so many reads or writes in a row, from the one that fails on, are interrupted by a signal
 *   AT_MOST     the most bytes that one read or write moves
 *   EVENTS      the file that is written at the end: a line for each file that was opened, created or closed, or not
 *               opened or created, as "opened road.gr" or "not created out"
 *   COUNTS      the file that is written at the end: a line of the four counts, the most memory that was held at once, in
 *               kB, and how many bytes the growths asked for; and where a call failed, a line that names it and
 *               its file, as "read road.gr"
 *
 * A read fails by EIO, a write by ENOSPC, an opening by EACCES and a growth by ENOMEM.
 *
 * The names with underscores are those by which the GNU C library offers the same calls.
 */
#include <errno.h>
#include <fcntl.h>
#include <stdarg.h>
#include <stdio.h>
#include <stdlib.h>
#include <string.h>
#include <sys/types.h>

void *__libc_malloc(size_t);
void *__libc_realloc(void *, size_t);
ssize_t __read(int, void *, size_t);
ssize_t __write(int, const void *, size_t);
int __open(const char *, int, ...);
int __close(int);

enum call { GROWTH, READ, WRITE, OPENING, CALLS };

enum { MOST_FILES = 64, MOST_NAME = 256 };

static long counts[CALLS], refused[CALLS];
static size_t bytes, refused_size;
static size_t at_most = (size_t)-1;
static long interrupts;
static int counting;

/* The names of the open files, and the line about the call that failed. */
static char names[MOST_FILES][MOST_NAME] = {"standard input", "standard output"};
static char failed[2 * MOST_NAME];

/* What was done with files, a line for each. */
static char events[16 * 1024];
static size_t events_size;

static long number(const char *name)
{
    const char *word = getenv(name);
    return word ? atol(word) : 0;
}

__attribute__((constructor)) static void start(void)
{
    refused[GROWTH] = number("REFUSE_GROWTH");
    refused[READ] = number("REFUSE_READ");
    refused[WRITE] = number("REFUSE_WRITE");
    refused[OPENING] = number("REFUSE_OPENING");
    refused_size = number("REFUSE_SIZE");
    if (number("AT_MOST") > 0)
        at_most = number("AT_MOST");
    interrupts = number("INTERRUPT");
    counting = 1;
}

/* The most memory that was held at once, in kB. */
static long peak(void)
{
    char status[4096];
    int file = __open("/proc/self/status", O_RDONLY);
    ssize_t size = __read(file, status, sizeof status - 1);
    status[size < 0 ? 0 : size] = 0;
    const char *line = strstr(status, "VmHWM:");
    return line ? atol(line + strlen("VmHWM:")) : -1;
}

/* Writes to the file that a variable names, if there is one. */
static void put(const char *variable, const char *line, ssize_t size)
{
    const char *name = getenv(variable);
    if (name && __write(__open(name, O_WRONLY | O_CREAT | O_TRUNC, 0666), line, size) != size)
        abort();
}

__attribute__((destructor)) static void end(void)
{
    counting = 0;
    char line[200 + sizeof failed];
    int size = snprintf(line, sizeof line, "%ld %ld %ld %ld %ld %zu\n%s", counts[GROWTH], counts[READ], counts[WRITE],
                        counts[OPENING], peak(), bytes, failed);
    put("COUNTS", line, size);
    put("EVENTS", events, events_size);
}

/* Notes what was done with a file. */
static void note(const char *done, const char *name)
{
    size_t room = sizeof events - events_size;
    int size = counting && *name ? snprintf(events + events_size, room, "%s %s\n", done, name) : 0;
    if (0 < size && (size_t)size < room)
        events_size += size;
}

/* Counts a call on a file of this name, and returns whether it fails, with this error. */
static int fails(enum call call, int error, const char *done, const char *name)
{
    if (!counting)
        return 0;
    counts[call] += 1;
    long after = counts[call] - refused[call];
    if (refused[call] == 0 || after < 0 || after > 0 && after >= interrupts)
        return 0;
    snprintf(failed, sizeof failed, "%s %s\n", done, name);
    errno = error;
    return 1;
}

/* The name of the file that this descriptor is of. */
static const char *name_of(int file)
{
    return 0 <= file && file < MOST_FILES ? names[file] : "";
}

/* Counts a growth of so many bytes, and returns whether it fails. */
static int grows_not(size_t size)
{
    if (counting)
        bytes += size;
    if (counting && size && size == refused_size) {
        errno = ENOMEM;
        return 1;
    }
    return fails(GROWTH, ENOMEM, "grown", "");
}

static size_t shortened(size_t size)
{
    return size < at_most ? size : at_most;
}

void *malloc(size_t size)
{
    return grows_not(size) ? NULL : __libc_malloc(size);
}

void *realloc(void *old, size_t size)
{
    return grows_not(size) ? NULL : __libc_realloc(old, size);
}

ssize_t read(int file, void *into, size_t size)
{
    int error = interrupts ? EINTR : EIO;
    return fails(READ, error, "read", name_of(file)) ? -1 : __read(file, into, shortened(size));
}

ssize_t write(int file, const void *from, size_t size)
{
    if (file == 2)
        return __write(file, from, size);
    int error = interrupts ? EINTR : ENOSPC;
    return fails(WRITE, error, "written", name_of(file)) ? -1 : __write(file, from, shortened(size));
}

int open(const char *name, int flags, ...)
{
    mode_t mode = 0;
    if (flags & O_CREAT) {
        va_list more;
        va_start(more, flags);
        mode = va_arg(more, mode_t);
        va_end(more);
    }
    if (strcmp(name, "/") == 0)
        return __open(name, flags, mode);
    if (fails(OPENING, EACCES, flags & O_CREAT ? "created" : "opened", name))
        return -1;
    int file = __open(name, flags, mode);
    if (counting && 0 <= file && file < MOST_FILES)
        snprintf(names[file], MOST_NAME, "%s", name);
    if (flags & O_CREAT)
        note(file < 0 ? "not created" : "created", name);
    else
        note(file < 0 ? "not opened" : "opened", name);
    return file;
}

/* The names by which the judge in Coq calls the same. */
#define TEXT(name) #name
#define TEXT_OF(name) TEXT(name)
int open64(const char *name, int flags, ...) __attribute__((alias(TEXT_OF(open))));

ssize_t __read_chk(int file, void *into, size_t size, size_t room)
{
    return read(file, into, size < room ? size : room);
}

int close(int file)
{
    note("closed", name_of(file));
    return __close(file);
}
