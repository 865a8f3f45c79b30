// Loaded before the C library (LD_PRELOAD), it fails the allocation whose number FAIL_ALLOC names, every one if that is negative, and says
// so on standard error.
typedef unsigned long size;

char *getenv(const char *);
long atol(const char *);
long write(int, const void *, size);
void *__libc_malloc(size);
void *__libc_realloc(void *, size);

static int fails(void) {
    static int is_read = 0;
    static long left = 0;
    static const char line[] = "fail_alloc: this allocation fails\n";
    if (!is_read) {
        const char *number = getenv("FAIL_ALLOC");
        left = number ? atol(number) : 0;
        is_read = 1;
    }
    if (left == 0 || (left > 0 && --left > 0)) return 0;
    return write(2, line, sizeof line - 1) > 0;
}

void *malloc(size bytes) { return fails() ? 0 : __libc_malloc(bytes); }
void *realloc(void *at, size bytes) { return fails() ? 0 : __libc_realloc(at, bytes); }
