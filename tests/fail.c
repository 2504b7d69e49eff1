// Loaded before a program (LD_PRELOAD): a read of the standard input moves at most as many bytes as the variable READS gives, and
// a write to the standard output at most as many as WRITES gives. FAIL names the call that fails, `read` or `write`, or
// `nothing` for a write that takes no byte; AT gives its number, counted from 1, and each later one fails too. Each that
// fails writes a byte to the open file whose number the variable TELL gives. It needs no header.
typedef __SIZE_TYPE__ size_t;

extern char *getenv(const char *name);
extern int atoi(const char *digits);
extern int *__errno_location(void);
extern long __read(int file, void *bytes, size_t size);
extern long __write(int file, const void *bytes, size_t size);

enum { EIO = 5 };

static size_t reads;
static size_t writes;
static char fails;
static int left;
static int told;

__attribute__((constructor)) static void begin(void) {
    reads = (size_t)atoi(getenv("READS"));
    writes = (size_t)atoi(getenv("WRITES"));
    fails = *getenv("FAIL");
    left = atoi(getenv("AT"));
    told = atoi(getenv("TELL"));
}

static size_t at_most(size_t size, size_t most) {
    return size < most ? size : most;
}

// Whether this call fails, which is told.
static int is_failed(void) {
    if (left > 1) {
        --left;
        return 0;
    }
    __write(told, "x", 1);
    *__errno_location() = EIO;
    return 1;
}

long read(int file, void *bytes, size_t size) {
    if (file != 0)
        return __read(file, bytes, size);
    return fails == 'r' && is_failed() ? -1 : __read(file, bytes, at_most(size, reads));
}

long write(int file, const void *bytes, size_t size) {
    if (file != 1)
        return __write(file, bytes, size);
    if (fails == 'w' && is_failed())
        return -1;
    if (fails == 'n' && is_failed())
        return 0;
    return __write(file, bytes, at_most(size, writes));
}
