/* A malloc that refuses its N-th call, N in REFUSED_CALL, for tests/refused-memory.sh: loaded before the C library's. */

extern void *__libc_malloc(unsigned long size);
extern void *__libc_calloc(unsigned long count, unsigned long size);
extern void *__libc_realloc(void *old, unsigned long size);
extern void *__libc_memalign(unsigned long align, unsigned long size);
extern char *getenv(const char *name);
extern long atol(const char *text);
extern long write(int file, const void *octets, unsigned long count);
extern int *__errno_location(void);
enum { NO_MEMORY = 12 }; /* ENOMEM */
static long left; /* the calls up to the one that is refused; 0: none is refused any more */
__attribute__((constructor)) static void begin(void) {
    const char *text = getenv("REFUSED_CALL");
    left = text ? atol(text) : 0;
}
static int refuses(void) {
    if (left == 0 || --left > 0) return 0;
    *__errno_location() = NO_MEMORY;
    return write(9, "x", 1) != 0; /* the script reads from this file that a call was refused */
}
void *malloc(unsigned long size) { return refuses() ? 0 : __libc_malloc(size); }
void *calloc(unsigned long count, unsigned long size) { return refuses() ? 0 : __libc_calloc(count, size); }
void *realloc(void *old, unsigned long size) { return refuses() ? 0 : __libc_realloc(old, size); }
int posix_memalign(void **at, unsigned long align, unsigned long size) {
    if (refuses()) return NO_MEMORY;
    *at = __libc_memalign(align, size);
    return *at ? 0 : NO_MEMORY;
}
