/* Preloaded into a program, this refuses one of its allocations: the one whose number, counted from
   1, is the value of REFUSED_ALLOCATION. Where the program comes to that one, a line is written to
   file descriptor 3.

   The toolchain's clang, which compiles this, comes without the C library's headers, so what is
   used of it is declared here. */

typedef __SIZE_TYPE__ size_t;

int *__errno_location(void);
char *getenv(const char *name);
unsigned long strtoul(const char *text, char **end, int base);
__PTRDIFF_TYPE__ write(int file, const void *bytes, size_t count);
_Noreturn void abort(void);

/* The functions of the C library under the three names that are taken over below. */
void *__libc_malloc(size_t size);
void *__libc_calloc(size_t count, size_t size);
void *__libc_realloc(void *block, size_t size);

enum { OUT_OF_MEMORY = 12 };

static unsigned long refused;
static unsigned long allocations;

__attribute__((constructor)) static void read_refused(void)
{
    const char *number = getenv("REFUSED_ALLOCATION");
    if (number)
        refused = strtoul(number, 0, 10);
}

static int is_refused(void)
{
    if (__atomic_add_fetch(&allocations, 1, __ATOMIC_SEQ_CST) != refused)
        return 0;
    if (write(3, "refused\n", 8) != 8)
        abort();
    *__errno_location() = OUT_OF_MEMORY;
    return 1;
}

void *malloc(size_t size)
{
    return is_refused() ? 0 : __libc_malloc(size);
}

void *calloc(size_t count, size_t size)
{
    return is_refused() ? 0 : __libc_calloc(count, size);
}

void *realloc(void *block, size_t size)
{
    return is_refused() ? 0 : __libc_realloc(block, size);
}
