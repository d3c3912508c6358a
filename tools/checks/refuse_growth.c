/* A malloc that refuses one growth: the one with the number REFUSE, counted from 1; where REFUSE_ON is set all after it
   too. It reports on the descriptor REPORT that it did. Preloaded by tools/check.py growth under the built program; no
   part of facl. It names what it calls, since the kit's compiler has no headers. */
typedef __SIZE_TYPE__ size_t;
extern void *dlsym(void *library, const char *name);
extern char *getenv(const char *name);
extern int atoi(const char *text);
extern long write(int descriptor, const void *bytes, size_t count);

/* The library after this one. */
#define RTLD_NEXT ((void *)-1)

static long growths;

static int refused(void) {
    static long wanted = -1;
    static int goes_on;
    if (wanted < 0) {
        const char *text = getenv("REFUSE");
        wanted = text ? atoi(text) : 0;
        goes_on = getenv("REFUSE_ON") != 0;
    }
    growths++;
    if (wanted && goes_on && growths > wanted) return 1;
    if (growths != wanted) return 0;
    (void)!write(atoi(getenv("REPORT")), "refused\n", 8);
    return 1;
}

void *malloc(size_t bytes) {
    static void *(*next)(size_t);
    if (!next) next = (void *(*)(size_t))dlsym(RTLD_NEXT, "malloc");
    return refused() ? 0 : next(bytes);
}

void *realloc(void *old, size_t bytes) {
    static void *(*next)(void *, size_t);
    if (!next) next = (void *(*)(void *, size_t))dlsym(RTLD_NEXT, "realloc");
    return refused() ? 0 : next(old, bytes);
}

void *aligned_alloc(size_t alignment, size_t bytes) {
    static void *(*next)(size_t, size_t);
    if (!next) next = (void *(*)(size_t, size_t))dlsym(RTLD_NEXT, "aligned_alloc");
    return refused() ? 0 : next(alignment, bytes);
}
