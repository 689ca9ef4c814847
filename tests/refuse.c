/* Refuses memory to a program before which it is loaded (LD_PRELOAD): tests/try-memory makes it.

   REFUSED=N is for the Nth request of malloc, calloc or realloc, from 1, and REFUSED=N.. for that one and all behind
   it. Each request that is refused leaves a letter, m, c or r, in the open file of the number REFUSED_TO. It is made
   without headers, so that any compiler of C will do; the functions that it calls are those of glibc. */

#define NO_MEMORY 12

extern void *__libc_malloc(unsigned long size);
extern void *__libc_calloc(unsigned long count, unsigned long size);
extern void *__libc_realloc(void *kept, unsigned long size);
extern int *__errno_location(void);
extern char *getenv(const char *name);
extern long write(int file, const void *bytes, unsigned long count);

static unsigned long requests, first;
static int file, goes_on;

static const char *number(const char *text, unsigned long *value)
{
    for (*value = 0; text && *text >= '0' && *text <= '9'; text++)
        *value = 10 * *value + (unsigned long)(*text - '0');
    return text;
}

__attribute__((constructor)) static void begin(void)
{
    unsigned long of_file;
    const char *rest;
    number(getenv("REFUSED_TO"), &of_file);
    file = (int)of_file;
    rest = number(getenv("REFUSED"), &first);
    goes_on = rest && *rest == '.';
}

/* Whether this request is refused. There may be several threads. */
static int refuses(char letter)
{
    unsigned long request;
    if (first == 0)
        return 0;
    request = __atomic_add_fetch(&requests, 1, __ATOMIC_SEQ_CST);
    if (request < first || (request > first && !goes_on))
        return 0;
    write(file, &letter, 1);
    *__errno_location() = NO_MEMORY;
    return 1;
}

void *malloc(unsigned long size)
{
    return refuses('m') ? 0 : __libc_malloc(size);
}

void *calloc(unsigned long count, unsigned long size)
{
    return refuses('c') ? 0 : __libc_calloc(count, size);
}

void *realloc(void *kept, unsigned long size)
{
    return refuses('r') ? 0 : __libc_realloc(kept, size);
}
