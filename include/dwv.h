/* dwv.h: verifies the DWARF debugging information of a linked ELF64 file, or of six sections, in memory.
 *
 *     struct dwv_verdict v = {0};
 *     switch (dwv_check(file, length, &v)) {
 *     case DWV_SOUND: printf("%" PRIu64 " entries\n", v.entries); break;
 *     case DWV_FAULT: printf("%s %s at %s+0x%08" PRIx32 "\n", v.rule, v.name, v.section, v.at); break;
 *     default:        puts("out of memory");
 *     }
 *
 * For any bytes, each call returns, and it keeps nothing: what it allocates by malloc is freed before it returns. The C
 * library may keep freed memory in its heap: dwv_check, dwv_check_sections and dwv_report allocate 4 MiB and free them
 * so that it does. A call has no state of its own, opens no file, prints nothing and never ends the process. Calls may
 * run in several threads at once, each with its own verdict and buffer. docs/LIBRARY.md says what is proved of each
 * call, if the caller sees to this:
 *
 *   - No pointer is NULL, not even one to 0 bytes. Each is valid for its length, which is below 2^63.
 *   - During the call nothing else writes to the input, and nothing else reads or writes the verdict, the counts and
 *     the buffers. None of them overlaps another one or the input.
 *   - So a file that is mapped must not be written or truncated during the call, by this or another process, even if it
 *     is mapped with MAP_PRIVATE. Read the file if it may change.
 *   - The verdict, the counts, and the buffer and length of a report have some value before the call, for example {0}.
 *     Arrays of rows need none: any bytes are a row, and no row is read before it is written.
 *   - malloc, realloc and free belong to one allocator, which aligns blocks as C requires.
 *   - No call is made in a signal handler, nor in the child of a process with threads between fork and exec.
 *   - The stack has 64 KiB left, and the processor has the instructions of x86-64-v2.
 */
#ifndef DWV_H
#define DWV_H

#include <stddef.h>
#include <stdint.h>

/* The version of this header. dwv_version() is that of the library. */
#define DWV_VERSION "0.9.0"

#ifdef __cplusplus
extern "C" {
#endif

/* What a call returns. The first four are exit statuses of the program. */
enum dwv_status {
    DWV_SOUND = 0,      /* the file is sound */
    DWV_FAULT = 1,      /* it violates a rule */
    DWV_NOT_A_TYPE = 2, /* dwv_report with DWV_SIZE: no type starts at the offset */
    DWV_NO_MEMORY = 4,  /* an allocation failed; nothing was written */
    DWV_TOO_SHORT = 5,  /* the buffer or the array is too short, and was not written */
    DWV_NO_REQUEST = 6  /* no request has this number; nothing was written */
};

/* The counts of a sound file, or the first fault of another one. All that belongs to the other case is 0. */
struct dwv_verdict {
    uint64_t units, entries, types;
    uint32_t at;        /* the offset in the section; if the section is "file", the number of a section header */
    uint32_t attribute; /* the attribute, 0 for none */
    char rule[8];       /* as "G1"; these three texts end with a zero byte */
    char section[16];   /* as ".debug_info", or "file" for a fault of the file itself */
    char name[24];      /* as "UndeclaredCode" */
};

/* Checks a file: DWV_SOUND, DWV_FAULT or DWV_NO_MEMORY. */
enum dwv_status dwv_check(const uint8_t *file, size_t file_length, struct dwv_verdict *verdict);

/* The version of the library, as "0.9.0". */
const char *dwv_version(void);

/* Checks six sections, which may come from a file of any format. A section that the file does not have has 0 bytes (and
 * a pointer that is not NULL). */
enum dwv_status dwv_check_sections(
    const uint8_t *info, size_t info_length,
    const uint8_t *abbrev, size_t abbrev_length,
    const uint8_t *str, size_t str_length,
    const uint8_t *line_str, size_t line_str_length,
    const uint8_t *str_offsets, size_t str_offsets_length,
    const uint8_t *addr, size_t addr_length,
    struct dwv_verdict *verdict);

/* Six sections. One that the file does not have may be left {0}: here a pointer may be NULL if the length is 0. */
struct dwv_section {
    const uint8_t *bytes;
    size_t length;
};
struct dwv_sections {
    struct dwv_section info, abbrev, str, line_str, str_offsets, addr;
};

/* Checks six sections, by dwv_check_sections. */
static inline enum dwv_status dwv_check_six(const struct dwv_sections *six, struct dwv_verdict *verdict) {
    static const uint8_t none = 0;
#define DWV_PLACE(section) six->section.length ? six->section.bytes : &none, six->section.length
    return dwv_check_sections(DWV_PLACE(info), DWV_PLACE(abbrev), DWV_PLACE(str), DWV_PLACE(line_str),
                              DWV_PLACE(str_offsets), DWV_PLACE(addr), verdict);
#undef DWV_PLACE
}

/* What dwv_report writes: the output of a command of the program. */
enum dwv_request {
    DWV_CHECK = 0,      /* dwv check */
    DWV_CHECK_JSON = 1, /* dwv check --json */
    DWV_SHOW = 2,       /* dwv show */
    DWV_TYPES = 3,      /* dwv types */
    DWV_SIZE = 4        /* dwv size, with the offset */
};

/* Writes what the program prints, without a zero byte at the end, and how many bytes that is. It returns the program's
 * exit status, or DWV_NO_MEMORY, DWV_TOO_SHORT (`needed` says how many bytes the buffer needs) or DWV_NO_REQUEST. Only
 * DWV_SIZE uses the offset. Each call checks the file anew. */
enum dwv_status dwv_report(
    const uint8_t *file, size_t file_length,
    uint32_t request, uint32_t offset,
    uint8_t *buffer, size_t capacity,
    size_t *needed);

/* No row. */
#define DWV_NONE UINT32_MAX

/* A unit of a sound file. */
struct dwv_unit {
    uint64_t language;      /* as 0x1d for C11, or 0 */
    uint32_t offset;        /* where it starts in .debug_info */
    uint32_t version;       /* 4 or 5 */
    uint32_t unit_type;     /* as in a header of version 5 */
    uint32_t address_size;  /* 4 or 8 */
    uint32_t first;         /* the row of its first entry */
    uint32_t entries;       /* how many entries it has; their rows follow one another */
    uint32_t rnglists_base; /* what indices of range lists count from in .debug_rnglists, or 0; it is not checked */
    uint32_t loclists_base; /* what indices of location lists count from in .debug_loclists, or 0; it is not checked */
};

/* Where text and bytes are. */
enum dwv_place {
    DWV_NOWHERE = 0,
    DWV_INFO = 1,    /* in .debug_info */
    DWV_STR = 2,     /* in .debug_str */
    DWV_LINE_STR = 3 /* in .debug_line_str */
};

/* An entry of a sound file, with its place among the others and its values. dwv_table counts `name` from the start of
 * the file, and dwv_table_sections from the start of the section that `name_section` names. */
struct dwv_entry {
    uint64_t size;         /* in bytes, of a type that has a size, else 0 */
    uint64_t name;         /* where its name starts, or 0 if it has none */
    uint32_t offset;       /* where it starts in .debug_info */
    uint32_t depth;        /* how many entries are above it */
    uint32_t tag;          /* as 0x24 for a base type */
    uint32_t has_size;     /* 1 for a type that has a size, else 0 */
    uint32_t name_length;  /* how many bytes its name has before the zero byte that ends it, or 0 if it has none */
    uint32_t name_section; /* which section its name is in, one of enum dwv_place; DWV_NOWHERE if it has none */
    uint64_t first_value;  /* the row of its first value */
    uint32_t values;       /* how many values it has; their rows follow one another */
    uint32_t unit;         /* the row of its unit */
    uint32_t parent;       /* the row of its parent, or DWV_NONE */
    uint32_t next_sibling; /* the row of its next sibling, or DWV_NONE */
};

/* What a value means, and what `number` of its row is. `length` and `section` are 0 where no bytes are named. Bytes of
 * .debug_info are those of the value itself; a text of .debug_str or .debug_line_str is at the offset that the value or
 * its slot in .debug_str_offsets gives. That holds of 0 bytes, too. */
enum dwv_kind {
    DWV_UNSIGNED = 1,        /* a number without a sign; its attribute may say that its top bit is one */
    DWV_SIGNED = 2,          /* a number with a sign, as (int64_t)number */
    DWV_FLAG = 3,            /* 0 or 1 */
    DWV_ADDRESS = 4,         /* an address; an index into .debug_addr is resolved */
    DWV_TEXT = 5,            /* where the text starts; length: its bytes, before the zero byte that ends it */
    DWV_BLOCK = 6,           /* where the bytes start; length: how many */
    DWV_EXPRESSION = 7,      /* the same, of an expression */
    DWV_WIDE = 8,            /* the same, of a number of 16 bytes, lowest first */
    DWV_REFERENCE = 9,       /* the row of the entry that it refers to */
    DWV_SECTION_OFFSET = 10, /* an offset into a section that the attribute implies; what is there is not checked */
    DWV_LOCATION_LIST = 11,  /* the index of a location list, which is not checked */
    DWV_RANGE_LIST = 12      /* the index of a range list, which is not checked */
};

/* A value of an entry of a sound file. For text and bytes, dwv_table counts `number` from the start of the file, and
 * dwv_table_sections from the start of the section that `section` names. */
struct dwv_value {
    uint64_t number;
    uint32_t length;
    uint32_t section;   /* one of enum dwv_place */
    uint32_t entry;     /* the row of its entry */
    uint32_t attribute; /* as 0x49 for a type */
    uint32_t kind;      /* one of enum dwv_kind */
    uint32_t zero;      /* 0 */
};

/* How many rows a sound file has. */
struct dwv_counts {
    uint64_t units, entries, values;
};

/* Checks a file, and writes a row for each unit, each entry and each value of a sound one, in the order of the file:
 * DWV_SOUND, DWV_FAULT, DWV_NO_MEMORY, or DWV_TOO_SHORT if one array has no room for all its rows: then `counts` says
 * how many there are, the verdict is that of a sound file, and no array is written. Rows past the last are not written.
 * If the file is not sound, `counts` is not written. An entry of one byte may have many values: make room by the counts
 * of a first call, not by the length of the file. No row has a form, the offset of an abbreviation table, whether an
 * entry may have children, or the signature and the type entry of a type unit. */
enum dwv_status dwv_table(
    const uint8_t *file, size_t file_length,
    struct dwv_unit *units, size_t unit_capacity,
    struct dwv_entry *entries, size_t entry_capacity,
    struct dwv_value *values, size_t value_capacity,
    struct dwv_counts *counts,
    struct dwv_verdict *verdict);

/* The same for six sections, which may come from a file of any format, as for dwv_check_sections. */
enum dwv_status dwv_table_sections(
    const uint8_t *info, size_t info_length,
    const uint8_t *abbrev, size_t abbrev_length,
    const uint8_t *str, size_t str_length,
    const uint8_t *line_str, size_t line_str_length,
    const uint8_t *str_offsets, size_t str_offsets_length,
    const uint8_t *addr, size_t addr_length,
    struct dwv_unit *units, size_t unit_capacity,
    struct dwv_entry *entries, size_t entry_capacity,
    struct dwv_value *values, size_t value_capacity,
    struct dwv_counts *counts,
    struct dwv_verdict *verdict);

/* A frame at an address: a function that has it, and the place in it. */
struct dwv_frame {
    uint64_t line;        /* 0 if it is not known */
    uint64_t column;      /* 0 if it is not known */
    uint64_t name;        /* where the function's name starts in `text`: the linkage name if it has one */
    uint64_t name_length; /* how many bytes it has; 0 if it is not known, or empty */
    uint64_t path;        /* where the path of the source file starts in `text` */
    uint64_t path_length; /* how many bytes it has; 0 if it is not known */
    uint32_t function;    /* the row of the function's entry, as dwv_table has it, or DWV_NONE where only the line is
                             known */
    uint32_t unit;        /* the row of the unit */
};

/* The frames at an address: rows first .. first + frames - 1, the innermost first. */
struct dwv_located {
    uint64_t first;
    uint64_t frames;
};

/* How many rows and bytes there are. */
struct dwv_frame_counts {
    uint64_t frames, text;
};

/* Checks a file, its line programs and its ranges, as `dwv-addr check` does, and looks addresses up in a sound one: for
 * each address, in their order, `located` says which rows have its frames (none if nothing is known of it). A function
 * that is inlined has a row before that of the function that it is inlined in, whose place is then that of the call.
 * Names and paths follow one another in `text`, without zero bytes. It returns DWV_SOUND, DWV_FAULT, DWV_NO_MEMORY, or
 * DWV_TOO_SHORT if one array has no room: then `counts` says how many rows and bytes there are, the verdict is that of
 * a sound file, and no array is written. `located` needs as much room as there are addresses. Rows and bytes past the
 * last are not written. If the file is not sound, `counts` is not written. Each call checks the file anew: look many
 * addresses up at once. They are the file's own: take off first what a loader adds to them. */
enum dwv_status dwv_frames(
    const uint8_t *file, size_t file_length,
    const uint64_t *addresses, size_t address_count,
    struct dwv_located *located, size_t located_capacity,
    struct dwv_frame *frames, size_t frame_capacity,
    uint8_t *text, size_t text_capacity,
    struct dwv_frame_counts *counts,
    struct dwv_verdict *verdict);

#ifdef __cplusplus
}
#endif
#endif
