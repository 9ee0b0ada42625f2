// The allocator of a program that `build_unproved.sh --refusing` builds: one allocation fails, that with the number in REFUSED_ALLOCATION,
// counted from 1. None does without a number. Once it has failed, the file named by REFUSED_NOTE is there.

typedef struct {
    long is_there, place;
} Found;

extern Found rattle_alloc(long size, long align);
extern Found rattle_realloc(long place, long size, long align, long new_size);
extern char *getenv(const char *name);
extern long strtol(const char *text, char **end, int base);
extern int creat(const char *name, unsigned mode);
extern int close(int file);

static long asked, refused = -1;
static char nowhere;

static int is_refused(void) {
    if (refused < 0) {
        const char *number = getenv("REFUSED_ALLOCATION");
        refused = number ? strtol(number, 0, 10) : 0;
    }
    if (__atomic_add_fetch(&asked, 1, __ATOMIC_RELAXED) != refused)
        return 0;
    const char *note = getenv("REFUSED_NOTE");
    if (note)
        close(creat(note, 0600));
    return 1;
}

Found try_rattle_alloc(long size, long align) {
    return is_refused() ? (Found){0, (long)&nowhere} : rattle_alloc(size, align);
}

Found try_rattle_realloc(long place, long size, long align, long new_size) {
    return is_refused() ? (Found){0, (long)&nowhere} : rattle_realloc(place, size, align, new_size);
}
