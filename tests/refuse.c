/* Preloaded into a program, refuses one of its growths, calls of malloc, calloc or realloc that ask for bytes; or has one
 * of its standard streams fail.
 *
 *   TCLINT_REFUSE=N        the growth that is refused, counted from 1; 0: none
 *   TCLINT_REFUSE_LATER=1  each later one is refused too
 *   TCLINT_GROWTHS=FILE    gets the count of the growths when the program ends
 *   TCLINT_FAIL=0, 1, 2    the stream that fails: standard input, output or error
 *   TCLINT_FAIL_AFTER=N    and behind how many bytes
 *   TCLINT_SHORT=1         each read and each write takes one byte
 *
 * It stands on names of the GNU C library. It wants no header and links no library, so that a compiler alone builds it:
 * what it calls is in the C library that the program has anyway.
 */
typedef __SIZE_TYPE__ size_t;
typedef __PTRDIFF_TYPE__ ssize_t;

extern void *__libc_malloc(size_t size);
extern void *__libc_calloc(size_t count, size_t size);
extern void *__libc_realloc(void *old, size_t size);
extern ssize_t __read(int file, void *bytes, size_t count);
extern ssize_t __write(int file, const void *bytes, size_t count);
extern int *__errno_location(void);
extern char *getenv(const char *name);
extern long strtol(const char *text, char **end, int base);
extern int creat(const char *path, unsigned mode);
extern int dprintf(int file, const char *format, ...);

enum { FAULT = 5, NO_MEMORY = 12 };

static long refused, growths, failing, bytes_left;
static int is_ready, is_later_too, is_short, is_over;

static long number(const char *name, long otherwise) {
    const char *text = getenv(name);
    return text ? strtol(text, 0, 10) : otherwise;
}

static void read_environment(void) {
    if (is_ready) return;
    is_ready = 1;
    refused = number("TCLINT_REFUSE", 0);
    is_later_too = number("TCLINT_REFUSE_LATER", 0) == 1;
    failing = number("TCLINT_FAIL", -1);
    bytes_left = number("TCLINT_FAIL_AFTER", 0);
    is_short = number("TCLINT_SHORT", 0) == 1;
}

static int is_refused(void) {
    read_environment();
    if (is_over) return 0;
    growths++;
    if (refused == 0 || growths < refused || (growths > refused && !is_later_too)) return 0;
    *__errno_location() = NO_MEMORY;
    return 1;
}

void *malloc(size_t size) {
    return is_refused() ? 0 : __libc_malloc(size);
}

void *calloc(size_t count, size_t size) {
    return is_refused() ? 0 : __libc_calloc(count, size);
}

void *realloc(void *old, size_t size) {
    /* giving back all bytes is no growth */
    if (size != 0 && is_refused()) return 0;
    return __libc_realloc(old, size);
}

/* How many bytes of a read or a write are let through; below 0 where it fails. */
static ssize_t allowed(int file, size_t count) {
    read_environment();
    if (is_short && count > 1) count = 1;
    if (file != failing || count == 0) return (ssize_t)count;
    if (bytes_left == 0) {
        *__errno_location() = FAULT;
        return -1;
    }
    return count > (size_t)bytes_left ? bytes_left : (ssize_t)count;
}

static ssize_t moved(int file, ssize_t count) {
    if (file == failing && count > 0) bytes_left -= count;
    return count;
}

ssize_t read(int file, void *bytes, size_t count) {
    ssize_t most = allowed(file, count);
    return most < 0 ? -1 : moved(file, __read(file, bytes, (size_t)most));
}

ssize_t write(int file, const void *bytes, size_t count) {
    ssize_t most = allowed(file, count);
    return most < 0 ? -1 : moved(file, __write(file, bytes, (size_t)most));
}

__attribute__((destructor)) static void write_growths(void) {
    const char *path = getenv("TCLINT_GROWTHS");
    is_over = 1;
    if (path) {
        int file = creat(path, 0600);
        if (file >= 0) dprintf(file, "%ld", growths);
    }
}
