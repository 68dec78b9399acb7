/* Structures, unions, bit fields, nested types without a name, arrays and enumerations. A compiler accepts the lines
   that `dwv types` prints of them, in their order. */
#include <stddef.h>
#include <stdint.h>

typedef unsigned long word;
typedef unsigned __int128 widest;

enum colour { RED, GREEN = 5, BLUE = -1 };

typedef enum { SMALL = 1, LARGE = 0x7fffffff } extent;

struct point {
    int x, y;
};

union number {
    uint8_t bytes[8];
    uint64_t whole;
    double real;
};

struct flags {
    unsigned ready : 1;
    unsigned : 3;
    signed level : 4;
    unsigned long long wide : 40;
    _Bool done : 1;
};

struct nested {
    struct {
        int a;
        union {
            short b;
            struct {
                char c, d;
            };
        };
    };
    struct inner {
        struct point corners[2][3];
        struct nested *up;
    } inside;
    union {
        float e;
        extent f;
    } named;
    char rest[];
};

struct empty {};

struct tree {
    struct tree *left, *right;
    const struct point *at;
    volatile int *const *count;
    char *restrict name;
    _Atomic int turns;
};

static struct nested cells[4];
static const union number numbers[] = {{.whole = 1}, {.real = 2.5}};
struct flags state = {.ready = 1, .level = -2, .wide = 77};
struct tree *forest[2];
enum colour paint = BLUE;
_Complex double phase;
long double precise = 1.5L;
__int128 huge;
widest limit;
word words[3];
struct empty nothing;
wchar_t letter = L'x';

int shapes_sum(int n)
{
    struct local {
        int total;
        struct point last;
    } here = {0, {1, 2}};
    int steps[n > 0 ? n : 1];
    for (int k = 0; k < n; k++) {
        steps[k] = k;
        here.total += steps[k] + cells[k & 3].inside.corners[0][1].x + here.last.y;
    }
    {
        int total = (int)numbers[0].whole;
        here.total += total;
    }
    return here.total + (int)sizeof(state);
}
