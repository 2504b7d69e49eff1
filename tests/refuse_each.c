// Loaded before a program (LD_PRELOAD): refuses each growth of memory in turn, from the one whose number the variable FIRST gives, counted from 1,
// or each so manyth from there on as the variable EVERY gives.
// At each, the process forks: the child's growth is refused, and it goes on to its end; then the process itself goes on as if nothing had been.
// Standard input, output and error output are plain files, which stand again after each child where they stood before. What each child came to
// is appended to the open file whose number the variable TELL gives: its growth, wait status, length of the output and of the error output,
// each as 8 bytes, lowest first, then both outputs from their beginning. It needs no header.
typedef __SIZE_TYPE__ size_t;

extern char *getenv(const char *name);
extern int atoi(const char *digits);
extern int fork(void);
extern int waitpid(int child, int *status, int options);
extern long lseek(int file, long place, int from);
extern int ftruncate(int file, long size);
extern long pread(int file, void *bytes, size_t size, long place);
extern long write(int file, const void *bytes, size_t size);
extern void _exit(int status) __attribute__((noreturn));
extern void *__libc_malloc(size_t size);
extern void *__libc_realloc(void *old, size_t size);

enum { SET = 0, HERE = 1, LOST = 99 };

static long growth;
static long first;
static long every;
static int is_child;
static int told;

__attribute__((constructor)) static void begin(void) {
    first = atoi(getenv("FIRST"));
    every = atoi(getenv("EVERY"));
    told = atoi(getenv("TELL"));
}

static void tell(const void *bytes, size_t size) {
    if (write(told, bytes, size) != (long)size) _exit(LOST);
}

// Copies the first bytes of a file to the one that is told.
static void copy(int file, long size) {
    char part[4096];
    for (long at = 0; at < size;) {
        long got = pread(file, part, sizeof part, at);
        if (got <= 0) _exit(LOST);
        if (got > size - at) got = size - at;
        tell(part, (size_t)got);
        at += got;
    }
}

// Whether this growth is refused: it is in a child, and the process waits for that.
static int is_refused(void) {
    if (is_child || first == 0) return 0;
    growth++;
    if (growth < first || (growth - first) % every != 0) return 0;
    long before[3], after[3], said[4];
    for (int file = 0; file < 3; file++) before[file] = lseek(file, 0, HERE);
    int status = 0, child = fork();
    if (child == 0) return is_child = 1;
    if (child < 0 || waitpid(child, &status, 0) != child) _exit(LOST);
    for (int file = 0; file < 3; file++) after[file] = lseek(file, 0, HERE);
    said[0] = growth, said[1] = status, said[2] = after[1], said[3] = after[2];
    tell(said, sizeof said);
    for (int file = 1; file < 3; file++) copy(file, after[file]);
    for (int file = 0; file < 3; file++) {
        if (lseek(file, before[file], SET) != before[file] || (file != 0 && ftruncate(file, before[file]) != 0)) _exit(LOST);
    }
    return 0;
}

void *malloc(size_t size) {
    return is_refused() ? (void *)0 : __libc_malloc(size);
}

void *realloc(void *old, size_t size) {
    return is_refused() ? (void *)0 : __libc_realloc(old, size);
}
