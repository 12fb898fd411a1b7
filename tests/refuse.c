/* malloc and realloc that refuse the one call whose number, from 1, the variable REFUSED gives. tests/run-rows loads it
   before the C library. */

extern void *__libc_malloc(unsigned long size);
extern void *__libc_realloc(void *old, unsigned long size);
extern char *getenv(const char *name);
extern long atol(const char *text);

static long calls;

static int is_refused(void) {
    const char *refused = getenv("REFUSED");
    calls += 1;
    return refused && atol(refused) == calls;
}

void *malloc(unsigned long size) {
    return is_refused() ? (void *)0 : __libc_malloc(size);
}

void *realloc(void *old, unsigned long size) {
    return is_refused() ? (void *)0 : __libc_realloc(old, size);
}
