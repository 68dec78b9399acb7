/* failing FILE..: on each file every call is made again for each of its allocations, which then fails, once alone and
   once with all after it. Each must return DWV_NO_MEMORY and leave the caller's memory as it was, or do the same as
   otherwise, and leave no block behind. It is linked with -Wl,--wrap=malloc,--wrap=realloc,--wrap=free. It ends with
   status 1 if a call did something else, or if none ran out of memory. */
#include <string.h>
#include "dwv.h"
#include "file.h"

void *__real_malloc(size_t);
void *__real_realloc(void *, size_t);
void __real_free(void *);

static long live, requests, refused, last;
static int counting;

static int refuse(void) {
    if (!counting)
        return 0;
    requests++;
    return refused <= requests && requests <= last;
}

void *__wrap_malloc(size_t size) {
    void *block = refuse() ? NULL : __real_malloc(size);
    live += counting && block;
    return block;
}

void *__wrap_realloc(void *old, size_t size) {
    void *block = refuse() ? NULL : __real_realloc(old, size);
    live += counting && block && !old;
    return block;
}

void __wrap_free(void *block) {
    live -= counting && block;
    __real_free(block);
}

/* All memory that calls write. */
struct memory {
    struct dwv_verdict verdict;
    size_t needed;
    struct dwv_counts counts;
    struct dwv_unit units[64];
    struct dwv_entry entries[64];
    struct dwv_value values[64];
    struct dwv_frame_counts frame_counts;
    struct dwv_located located[3];
    struct dwv_frame frames[64];
    uint8_t text[1 << 16];
};

/* A call by its number: 0 to 4 are the requests of dwv_report. */
static uint32_t call(int number, const uint8_t *file, size_t length, struct memory *to) {
    static const uint8_t none[1];
    static const uint64_t addresses[] = {0x1006, 0, 0x1000};
    memset(to, 0x5a, sizeof *to);
    requests = live = 0;
    counting = 1;
    uint32_t status;
    if (number <= DWV_SIZE)
        status = dwv_report(file, length, (uint32_t)number, 0x0f, to->text, sizeof to->text, &to->needed);
    else if (number == 5)
        status = dwv_check(file, length, &to->verdict);
    else if (number == 6)
        status = dwv_table(file, length, to->units, 64, to->entries, 64, to->values, 64, &to->counts, &to->verdict);
    else if (number == 7)
        status = dwv_frames(file, length, addresses, 3, to->located, 3, to->frames, 64, to->text, sizeof to->text,
                            &to->frame_counts, &to->verdict);
    else
        status = dwv_check_sections(file + 64, 64, file, 64, none, 0, none, 0, none, 0, none, 0, &to->verdict);
    counting = 0;
    return status;
}

int main(int argc, char **argv) {
    static struct memory want, got, old;
    long wrong = 0, ended = 0, made = 0;
    memset(&old, 0x5a, sizeof old);
    for (int k = 1; k < argc; k++) {
        size_t length;
        uint8_t *file = read_file(argv[k], &length);
        for (int number = 0; number <= 8; number++) {
            refused = 1, last = 0;
            uint32_t status = call(number, file, length, &want);
            long all = requests;
            wrong += live != 0 || status == DWV_NO_MEMORY;
            made += all;
            for (long n = 1; n <= all; n++)
                for (int rest = 0; rest < 2; rest++) {
                    refused = n, last = rest ? 1L << 40 : n;
                    uint32_t found = call(number, file, length, &got);
                    int is_memory = found == DWV_NO_MEMORY && !memcmp(&got, &old, sizeof got);
                    int is_same = found == status && !memcmp(&got, &want, sizeof got);
                    ended += is_memory;
                    wrong += live != 0 || (!is_memory && !is_same);
                }
        }
        free(file);
    }
    printf("%ld requests, %ld refusals end a call, %ld wrong\n", made, ended, wrong);
    return wrong != 0 || ended == 0;
}
