// Loaded before a program (LD_PRELOAD): refuses one growth of memory, the one whose number the variable REFUSE gives,
// counted from 1, and then writes a byte to the open file whose number the variable TELL gives. It needs no header.
typedef __SIZE_TYPE__ size_t;

extern char *getenv(const char *name);
extern int atoi(const char *digits);
extern long write(int file, const void *bytes, size_t size);
extern void *__libc_malloc(size_t size);
extern void *__libc_realloc(void *old, size_t size);

static int left;
static int told;

__attribute__((constructor)) static void begin(void) {
    left = atoi(getenv("REFUSE"));
    told = atoi(getenv("TELL"));
}

static int is_refused(void) {
    return left != 0 && --left == 0 && write(told, "x", 1) == 1;
}

void *malloc(size_t size) {
    return is_refused() ? (void *)0 : __libc_malloc(size);
}

void *realloc(void *old, size_t size) {
    return is_refused() ? (void *)0 : __libc_realloc(old, size);
}
