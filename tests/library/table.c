/* table FILE prints what `dwv show` prints of a sound file, from the rows of dwv_table. Before that it tries arrays
   that are too short by one, and sections that are in no file. It ends with the status of the call, or with 99 if one
   did not do what dwv.h says. */
#include <inttypes.h>
#include <string.h>
#include "dwv.h"
#include "file.h"
#include "filler.h"

struct table {
    struct dwv_unit *units;
    struct dwv_entry *entries;
    struct dwv_value *values;
};

/* The table, of which some arrays have less room than the counts say, or more. */
static uint32_t called(const uint8_t *file, size_t length, struct table *t, const struct dwv_counts *n,
                       const int more[3], struct dwv_counts *found, struct dwv_verdict *v) {
    size_t rooms[] = {n->units + more[0], n->entries + more[1], n->values + more[2]};
    t->units = filled(rooms[0] * sizeof *t->units);
    t->entries = filled(rooms[1] * sizeof *t->entries);
    t->values = filled(rooms[2] * sizeof *t->values);
    uint32_t status = dwv_table(file, length, t->units, rooms[0], t->entries, rooms[1], t->values, rooms[2], found, v);
    if (status != DWV_SOUND) {
        NEED(is_untouched(t->units, rooms[0] * sizeof *t->units));
        NEED(is_untouched(t->entries, rooms[1] * sizeof *t->entries));
        NEED(is_untouched(t->values, rooms[2] * sizeof *t->values));
    }
    return status;
}

static void freed(struct table *t) {
    free(t->units);
    free(t->entries);
    free(t->values);
}

/* Each name, text or block is in the file, a zero byte ends each text, and each reference names an entry. */
static void check_values(const uint8_t *file, size_t length, const struct table *t, const struct dwv_counts *n) {
    uint64_t at = 0;
    for (uint64_t k = 0; k < n->entries; k++) {
        const struct dwv_entry *entry = &t->entries[k];
        if (entry->name_section == DWV_NOWHERE)
            NEED(entry->name == 0 && entry->name_length == 0);
        else
            NEED(entry->name < length && entry->name_length < length - entry->name &&
                 strlen((const char *)file + entry->name) == entry->name_length);
        NEED(entry->has_size == 1 || (entry->has_size == 0 && entry->size == 0));
        NEED(entry->first_value == at && entry->unit < n->units && (entry->parent == DWV_NONE) == (entry->depth == 0));
        NEED(entry->parent == DWV_NONE || (entry->parent < k && t->entries[entry->parent].depth + 1 == entry->depth));
        NEED(entry->next_sibling == DWV_NONE || t->entries[entry->next_sibling].parent == entry->parent);
        for (; at < entry->first_value + entry->values; at++) {
            const struct dwv_value *value = &t->values[at];
            NEED(value->entry == k && value->zero == 0 && value->kind >= DWV_UNSIGNED && value->kind <= DWV_RANGE_LIST);
            NEED(value->kind != DWV_REFERENCE || value->number < n->entries);
            if (value->kind < DWV_TEXT || value->kind > DWV_WIDE)
                NEED(value->length == 0 && value->section == DWV_NOWHERE);
            else
                NEED(value->number <= length && value->length <= length - value->number);
            if (value->kind == DWV_TEXT)
                NEED(strlen((const char *)file + value->number) == value->length && value->section >= DWV_INFO &&
                     value->section <= DWV_LINE_STR);
            else if (value->kind >= DWV_BLOCK && value->kind <= DWV_WIDE)
                NEED(value->section == DWV_INFO);
        }
    }
    NEED(at == n->values);
}

static void print(const uint8_t *file, const struct table *t, const struct dwv_counts *n) {
    for (uint64_t k = 0; k < n->entries; k++) {
        const struct dwv_entry *entry = &t->entries[k];
        printf("0x%08" PRIx32 " %*s0x%04" PRIx32, entry->offset, (int)(2 * entry->depth), "", entry->tag);
        const uint8_t *name = file + entry->name;
        if (entry->name_section != DWV_NOWHERE) {
            printf(" \"");
            for (uint32_t i = 0; i < entry->name_length; i++)
                printf(name[i] < 0x20 || name[i] > 0x7e || strchr("\"\\", name[i]) ? "\\x%02x" : "%c", name[i]);
            putchar('"');
        }
        if (entry->has_size)
            printf(" size %" PRIu64, entry->size);
        puts("");
    }
}

/* A unit with an int, whose name is in .debug_str, and a variable with an empty name, expression and block. */
static void sections(void) {
    static const uint8_t table[] = {1, 0x11, 1, 0x03, 0x08, 0, 0, 2, 0x24, 0, 0x03, 0x0e, 0x0b, 0x0b, 0x3e, 0x0b, 0, 0,
                                    3, 0x34, 0, 0x03, 0x08, 0x02, 0x18, 0x1c, 0x0a, 0, 0, 0};
    static const uint8_t info[] = {0x17, 0, 0, 0, 5, 0, 1, 8, 0, 0, 0, 0,
                                   1, 'a', 0, 2, 1, 0, 0, 0, 4, 5, 3, 0, 0, 0, 0};
    static const uint8_t str[] = {0, 'i', 'n', 't', 0}, none[1];
    struct dwv_unit units[1] = {{0}};
    struct dwv_entry entries[3] = {{0}};
    struct dwv_value values[7] = {{0}};
    struct dwv_counts n = {0};
    struct dwv_verdict v = {0};
#define TABLE(info_size) \
    dwv_table_sections(info, info_size, table, sizeof table, str, sizeof str, none, 0, none, 0, none, 0, units, 1, \
                       entries, 3, values, 7, &n, &v)
    NEED(TABLE(sizeof info - 1) == DWV_FAULT && !strcmp(v.rule, "U1") && n.entries == 0);
    NEED(TABLE(sizeof info) == DWV_SOUND && n.units == 1 && n.entries == 3 && n.values == 7);
    NEED(entries[0].name == 13 && entries[0].name_section == DWV_INFO && entries[0].name_length == 1);
    NEED(entries[1].name == 1 && entries[1].name_section == DWV_STR && entries[1].name_length == 3);
    NEED(values[1].kind == DWV_TEXT && values[1].number == 1 && values[1].section == DWV_STR && values[1].length == 3);
    NEED(values[2].attribute == 0x0b && values[2].kind == DWV_UNSIGNED && values[2].number == 4);
    NEED(entries[1].parent == 0 && entries[0].parent == DWV_NONE && entries[1].size == 4 && entries[1].has_size == 1);
    NEED(entries[2].name == 23 && entries[2].name_section == DWV_INFO && entries[2].name_length == 0);
    static const uint32_t kinds[] = {DWV_TEXT, DWV_EXPRESSION, DWV_BLOCK};
    static const uint64_t starts[] = {23, 25, 26};
    for (int k = 0; k < 3; k++)
        NEED(values[4 + k].kind == kinds[k] && values[4 + k].number == starts[k] && values[4 + k].length == 0 &&
             values[4 + k].section == DWV_INFO);
}

int main(int argc, char **argv) {
    NEED(argc == 2);
    size_t length;
    uint8_t *file = read_file(argv[1], &length);
    sections();
    struct table t;
    struct dwv_counts n = {0}, again = {0};
    struct dwv_verdict v = {0}, w = {0};
    uint32_t status = called(file, length, &t, &n, (int[]){0, 0, 0}, &n, &v);
    NEED(dwv_check(file, length, &w) == (status == DWV_FAULT) && !memcmp(&v, &w, sizeof v));
    NEED(status != DWV_FAULT || (n.units == 0 && n.entries == 0 && n.values == 0));
    freed(&t);
    if (status == DWV_TOO_SHORT) {
        for (int k = 0; k < 3; k++) {
            int more[] = {k == 0 ? -1 : 0, k == 1 ? -1 : 1, k == 2 ? -1 : 0};
            NEED(called(file, length, &t, &n, more, &again, &w) == DWV_TOO_SHORT && !memcmp(&n, &again, sizeof n));
            freed(&t);
        }
        NEED(called(file, length, &t, &n, (int[]){1, 1, 1}, &again, &w) == DWV_SOUND && !memcmp(&n, &again, sizeof n));
        NEED(is_untouched(t.units + n.units, sizeof *t.units));
        NEED(is_untouched(t.entries + n.entries, sizeof *t.entries));
        NEED(is_untouched(t.values + n.values, sizeof *t.values) && n.units == v.units && n.entries == v.entries);
        check_values(file, length, &t, &n);
        print(file, &t, &n);
        freed(&t);
        status = DWV_SOUND;
    }
    free(file);
    return (int)status;
}
