/* functions PROGRAM prints where each function of a program starts and ends, and its name.

   By the table of the C library, without a reader of DWARF: a value is found by its attribute, and a reference is the
   row of an entry. Nothing can fail after the call. */
#include <dwv.h>
#include <inttypes.h>
#include <stdio.h>
#include <stdlib.h>

static uint8_t file[1 << 26];
static struct dwv_entry *entries;
static struct dwv_value *values;

static const struct dwv_value *find(const struct dwv_entry *entry, uint32_t attribute) {
    for (uint64_t k = entry->first_value; k < entry->first_value + entry->values; k++)
        if (values[k].attribute == attribute)
            return &values[k];
    return NULL;
}

int main(int argc, char **argv) {
    FILE *opened = argc == 2 ? fopen(argv[1], "rb") : NULL;
    if (!opened)
        return 3;
    size_t length = fread(file, 1, sizeof file, opened);
    fclose(opened);
    struct dwv_counts n = {1, 1, 1};
    struct dwv_verdict v = {0};
    enum dwv_status status;
    do { // at most twice: the first call says how many rows there are
        struct dwv_unit *units = calloc(n.units + 1, sizeof *units);
        entries = calloc(n.entries + 1, sizeof *entries);
        values = calloc(n.values + 1, sizeof *values);
        status = dwv_table(file, length, units, n.units, entries, n.entries, values, n.values, &n, &v);
    } while (status == DWV_TOO_SHORT);
    if (status != DWV_SOUND)
        return status;
    for (uint64_t k = 0; k < n.entries; k++) {
        const struct dwv_entry *entry = &entries[k];
        const struct dwv_value *low = find(entry, 0x11), *high = find(entry, 0x12), *of;
        if (entry->tag != 0x2e || !low || !high) // DW_TAG_subprogram, DW_AT_low_pc, DW_AT_high_pc
            continue;
        for (int k = 0; k < 3 && entry->name_section == DWV_NOWHERE; k++)
            if ((of = find(entry, 0x31)) || (of = find(entry, 0x47))) // DW_AT_abstract_origin, DW_AT_specification
                entry = &entries[of->number];
        uint64_t end = high->kind == DWV_ADDRESS ? high->number : low->number + high->number;
        printf("%#" PRIx64 " %#" PRIx64 " %s\n", low->number, end,
               entry->name_section == DWV_NOWHERE ? "?" : (const char *)file + entry->name);
    }
    return 0;
}
