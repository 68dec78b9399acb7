/* calls FILE prints what `dwv check` prints of a sound file or of a fault of its sections. Before that it tries buffers
   that are too short by one, and requests that there are not. It ends with the status of the call, or with 99 if one
   did not do what dwv.h says. */
#include <inttypes.h>
#include <string.h>
#include "dwv.h"
#include "file.h"
#include "filler.h"

static uint32_t check(const uint8_t *file, size_t length) {
    struct dwv_verdict v;
    memset(&v, FILLER, sizeof v);
    uint32_t status = dwv_check(file, length, &v);
    if (status == DWV_SOUND)
        printf("sound: %" PRIu64 " units, %" PRIu64 " entries, %" PRIu64 " types\n", v.units, v.entries, v.types);
    else if (!strcmp(v.section, "file"))
        printf("fault %s %s at section %" PRIu32 "\n", v.rule, v.name, v.at);
    else
        printf("fault %s %s at %s+0x%08" PRIx32 " attribute 0x%" PRIx32 "\n", v.rule, v.name, v.section, v.at,
               v.attribute);
    NEED(v.rule[7] == 0 && v.section[15] == 0 && v.name[23] == 0);
    NEED(status == DWV_FAULT || (v.at == 0 && v.attribute == 0 && !v.rule[0] && !v.section[0] && !v.name[0]));
    NEED(status == DWV_SOUND || (v.units == 0 && v.entries == 0 && v.types == 0));
    return status;
}

/* Each request into a buffer that is one byte too short, one of just its length, and a longer one. */
static void reports(const uint8_t *file, size_t length) {
    for (uint32_t request = DWV_CHECK; request <= DWV_SIZE; request++) {
        size_t needed = 0, again = 0;
        uint8_t *buffer = filled(0);
        uint32_t status = dwv_report(file, length, request, 0x0f, buffer, 0, &needed);
        NEED(status == (needed ? DWV_TOO_SHORT : DWV_SOUND) && is_untouched(buffer, 1));
        free(buffer);
        if (needed) {
            buffer = filled(needed - 1);
            NEED(dwv_report(file, length, request, 0x0f, buffer, needed - 1, &again) == DWV_TOO_SHORT);
            NEED(again == needed && is_untouched(buffer, needed - 1));
            free(buffer);
        }
        uint8_t *exact = filled(needed), *more = filled(needed + 9);
        status = dwv_report(file, length, request, 0x0f, exact, needed, &again);
        NEED(status <= DWV_NOT_A_TYPE && again == needed);
        NEED(dwv_report(file, length, request, 0x0f, more, needed + 9, &again) == status && again == needed);
        NEED(!memcmp(exact, more, needed) && is_untouched(more + needed, 9));
        free(exact);
        free(more);
    }
    uint8_t buffer[64];
    size_t needed = 77;
    memset(buffer, FILLER, sizeof buffer);
    NEED(dwv_report(file, length, DWV_SIZE + 1, 0, buffer, sizeof buffer, &needed) == DWV_NO_REQUEST);
    NEED(dwv_report(file, length, UINT32_MAX, 0, buffer, sizeof buffer, &needed) == DWV_NO_REQUEST);
    NEED(needed == 77 && is_untouched(buffer, sizeof buffer));
}

/* Sections that are in no file: a unit with an int, the same cut by a byte, and one that is in .debug_str. */
static void sections(void) {
    static const uint8_t table[] = {1, 0x11, 1, 0x03, 0x08, 0, 0, 2, 0x24, 0, 0x03, 0x0e, 0x0b, 0x0b, 0x3e, 0x0b, 0, 0,
                                    0};
    static const uint8_t info[] = {0x13, 0, 0, 0, 5, 0, 1, 8, 0, 0, 0, 0, 1, 'a', 0, 2, 1, 0, 0, 0, 4, 5, 0};
    static const uint8_t str[] = {0, 'i', 'n', 't', 0}, none[1];
    struct dwv_verdict v = {0};
#define CHECK(info, info_size, str, str_size) \
    dwv_check_sections(info, info_size, table, sizeof table, str, str_size, none, 0, none, 0, none, 0, &v)
    NEED(CHECK(info, sizeof info, str, sizeof str) == DWV_SOUND);
    NEED(v.units == 1 && v.entries == 2 && v.types == 1);
    NEED(CHECK(info, sizeof info - 1, str, sizeof str) == DWV_FAULT);
    NEED(!strcmp(v.rule, "U1") && !strcmp(v.name, "UnitCut") && !strcmp(v.section, ".debug_info") && v.at == 0);
    NEED(CHECK(info, sizeof info, none, 0) == DWV_FAULT);
    NEED(!strcmp(v.rule, "S3") && v.at == 15 && v.attribute == 3 && v.entries == 0);
    NEED(CHECK(none, 0, none, 0) == DWV_SOUND && v.units == 0);
    struct dwv_sections six = {.info = {info, sizeof info}, .abbrev = {table, sizeof table}, .str = {str, sizeof str}};
    NEED(dwv_check_six(&six, &v) == DWV_SOUND && v.entries == 2);
    six.str.length = 0;
    NEED(dwv_check_six(&six, &v) == DWV_FAULT && !strcmp(v.rule, "S3"));
    NEED(!strcmp(dwv_version(), DWV_VERSION));
}

int main(int argc, char **argv) {
    NEED(argc == 2);
    size_t length;
    uint8_t *file = read_file(argv[1], &length);
    sections();
    reports(file, length);
    uint32_t status = check(file, length);
    free(file);
    return (int)status;
}
