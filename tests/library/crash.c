/* Prints its backtrace, as a program does that ends by a crash. */
#include <execinfo.h>

static int deep(void) {
    void *calls[9];
    int count = backtrace(calls, 9);
    backtrace_symbols_fd(calls, count, 1);
    return count;
}
int main(void) {
    return deep() & 0;
}
