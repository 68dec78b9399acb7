/* threads FILE FILE: eight threads with a stack of 64 KiB each check one of the two files 2,000 times. Each verdict
   must be the first one of that file. */
#include <pthread.h>
#include <string.h>
#include "dwv.h"
#include "file.h"

enum { THREADS = 8, ROUNDS = 2000 };

struct work {
    const uint8_t *file;
    size_t length;
    uint32_t status;
    struct dwv_verdict verdict;
    int wrong;
};

static void *check(void *given) {
    struct work *work = given;
    for (int k = 0; k < ROUNDS; k++) {
        struct dwv_verdict v = {0};
        uint32_t status = dwv_check(work->file, work->length, &v);
        work->wrong += status != work->status || memcmp(&v, &work->verdict, sizeof v) != 0;
    }
    return NULL;
}

int main(int argc, char **argv) {
    if (argc != 3)
        return 2;
    struct work work[THREADS];
    pthread_t threads[THREADS];
    pthread_attr_t attributes;
    int wrong = pthread_attr_init(&attributes) || pthread_attr_setstacksize(&attributes, 1 << 16);
    memset(work, 0, sizeof work);
    uint8_t *files[2];
    for (int k = 0; k < THREADS; k++) {
        struct work *one = &work[k];
        if (k < 2)
            files[k] = read_file(argv[1 + k], &one->length);
        else
            one->length = work[k % 2].length;
        one->file = files[k % 2];
        one->status = dwv_check(one->file, one->length, &one->verdict);
    }
    for (int k = 0; k < THREADS; k++)
        wrong += pthread_create(&threads[k], &attributes, check, &work[k]) != 0;
    for (int k = 0; k < THREADS; k++) {
        wrong += pthread_join(threads[k], NULL) != 0;
        wrong += work[k].wrong;
    }
    printf("status %u and %u, %d wrong\n", (unsigned)work[0].status, (unsigned)work[1].status, wrong);
    free(files[0]);
    free(files[1]);
    return wrong != 0;
}
