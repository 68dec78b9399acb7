/* What the tests of calls share: memory that is full of a filler, and facts that must hold. */
#include <stdint.h>
#include <stdio.h>
#include <stdlib.h>
#include <string.h>

#define NEED(fact) ((fact) ? (void)0 : (fprintf(stderr, "%s:%d: %s\n", __FILE__, __LINE__, #fact), exit(99)))
enum { FILLER = 0x5a };

/* Whether all of these bytes are the filler. */
static int is_untouched(const void *memory, size_t length) {
    for (size_t k = 0; k < length; k++)
        if (((const uint8_t *)memory)[k] != FILLER)
            return 0;
    return 1;
}

/* Memory full of the filler. */
static void *filled(size_t length) {
    void *memory = malloc(length ? length : 1);
    NEED(memory);
    return memset(memory, FILLER, length ? length : 1);
}
