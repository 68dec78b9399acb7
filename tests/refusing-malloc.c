/* A malloc that refuses the requests from REFUSED to LAST, by their numbers from 1; with no LAST only the one with the
   number REFUSED, and with no REFUSED none. At exit it writes the number of requests to the file that REQUESTS names,
   if it names one. It is loaded by LD_PRELOAD. */
#define _GNU_SOURCE
#include <dlfcn.h>
#include <stdio.h>
#include <stdlib.h>

static unsigned long requests, refused, last;

__attribute__((constructor)) static void begin(void) {
    const char *word = getenv("REFUSED");
    refused = word ? strtoul(word, 0, 10) : 0;
    word = getenv("LAST");
    last = word ? strtoul(word, 0, 10) : refused;
    requests = 0;
}

__attribute__((destructor)) static void end(void) {
    const char *path = getenv("REQUESTS");
    FILE *file = path ? fopen(path, "w") : 0;
    if (file) {
        fprintf(file, "%lu\n", requests);
        fclose(file);
    }
}

static int refuse(void) {
    requests++;
    return refused && refused <= requests && requests <= last;
}

void *malloc(size_t size) {
    static void *(*next)(size_t);
    if (!next)
        next = (void *(*)(size_t))dlsym(RTLD_NEXT, "malloc");
    return refuse() ? 0 : next(size);
}

void *realloc(void *old, size_t size) {
    static void *(*next)(void *, size_t);
    if (!next)
        next = (void *(*)(void *, size_t))dlsym(RTLD_NEXT, "realloc");
    return refuse() ? 0 : next(old, size);
}
