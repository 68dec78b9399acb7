/* Function pointers, functions inlined into others, variable arguments, recursion and labels. */
#include <stdarg.h>
#include <stdlib.h>

typedef int (*compare)(const void *, const void *);
typedef void handler(int);
typedef handler *(*chooser)(handler *, ...);

struct table {
    compare by;
    int (*open)(const char *name, int mode, ...);
    int (*(*make)(void))[3];
    chooser choose[2];
};

struct table current;
int shapes_sum(int n);

static inline int twice(int x)
{
    return 2 * x;
}

static int backwards(const void *a, const void *b)
{
    return *(const int *)b - *(const int *)a;
}

int sum(int count, ...)
{
    va_list rest;
    int total = 0;
    va_start(rest, count);
    while (count-- > 0)
        total += twice(va_arg(rest, int));
    va_end(rest);
    return total;
}

static int depth(int n)
{
    return n <= 0 ? 0 : 1 + depth(n / 2);
}

int main(int argc, char **argv)
{
    int values[] = {3, 1, 2};
    current.by = backwards;
    qsort(values, 3, sizeof values[0], current.by);
    if (argc > 5)
        goto out;
    values[0] += depth(argc) + sum(2, argc, 4) + shapes_sum(argc);
out:
    return argv[0] == NULL ? values[1] : values[0] & 0;
}
