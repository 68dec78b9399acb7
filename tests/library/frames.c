/* frames FILE ADDRESS.. prints what `dwv-addr find FILE ADDRESS ..` prints, from the rows of dwv_frames. Before that it
   tries arrays that are too short by one, and longer ones. It ends with the status of the call, or with 99 if one did
   not do what dwv.h says. */
#include <inttypes.h>
#include <string.h>
#include "dwv.h"
#include "file.h"
#include "filler.h"

struct found {
    struct dwv_located *located;
    struct dwv_frame *frames;
    uint8_t *text;
};

/* The frames, into arrays of which some have less room than the counts say, or more. */
static uint32_t called(const uint8_t *file, size_t length, const uint64_t *addresses, size_t count, struct found *f,
                       const struct dwv_frame_counts *n, const int more[3], struct dwv_frame_counts *again,
                       struct dwv_verdict *v) {
    size_t rooms[] = {count + more[0], n->frames + more[1], n->text + more[2]};
    f->located = filled(rooms[0] * sizeof *f->located);
    f->frames = filled(rooms[1] * sizeof *f->frames);
    f->text = filled(rooms[2]);
    uint32_t status = dwv_frames(file, length, addresses, count, f->located, rooms[0], f->frames, rooms[1], f->text,
                                 rooms[2], again, v);
    if (status != DWV_SOUND) {
        NEED(is_untouched(f->located, rooms[0] * sizeof *f->located));
        NEED(is_untouched(f->frames, rooms[1] * sizeof *f->frames));
        NEED(is_untouched(f->text, rooms[2]));
    }
    return status;
}

static void freed(struct found *f) {
    free(f->located);
    free(f->frames);
    free(f->text);
}

/* The frames of one address follow those of the one before it. So do the texts, a name before a path. */
static void check_rows(const struct found *f, size_t count, const struct dwv_frame_counts *n,
                       const struct dwv_verdict *v) {
    uint64_t at = 0, text = 0;
    for (size_t k = 0; k < count; k++) {
        NEED(f->located[k].first == at);
        at += f->located[k].frames;
    }
    NEED(at == n->frames);
    for (uint64_t k = 0; k < n->frames; k++) {
        const struct dwv_frame *frame = &f->frames[k];
        NEED(frame->name == text || frame->name_length == 0);
        text += frame->name_length;
        NEED(frame->path == text || frame->path_length == 0);
        text += frame->path_length;
        NEED(frame->unit < v->units && (frame->function < v->entries || frame->function == DWV_NONE));
    }
    NEED(text == n->text && !memchr(f->text, 0, n->text));
}

static void print_text(const uint8_t *text, uint64_t length) {
    if (length == 0)
        printf("??");
    for (uint64_t k = 0; k < length; k++)
        printf(text[k] < 0x20 || text[k] == 0x7f || text[k] == '\\' ? "\\x%02x" : "%c", text[k]);
}

static void print(const struct found *f, size_t count) {
    for (size_t k = 0; k < count; k++) {
        for (uint64_t i = 0; i < f->located[k].frames; i++) {
            const struct dwv_frame *frame = &f->frames[f->located[k].first + i];
            print_text(f->text + frame->name, frame->name_length);
            puts("");
            print_text(f->text + frame->path, frame->path_length);
            printf(":%" PRIu64 ":%" PRIu64 "\n", frame->line, frame->column);
        }
        puts(f->located[k].frames ? "" : "\?\?\n\?\?:0:0\n");
    }
}

int main(int argc, char **argv) {
    NEED(argc >= 2);
    size_t length, count = (size_t)argc - 2;
    uint8_t *file = read_file(argv[1], &length);
    uint64_t *addresses = malloc(count * sizeof *addresses + 1);
    for (size_t k = 0; k < count; k++)
        addresses[k] = strtoull(argv[2 + k], NULL, 16);
    struct found f;
    struct dwv_frame_counts n = {0}, again = {0};
    struct dwv_verdict v = {0}, w = {0};
    uint32_t status = called(file, length, addresses, count, &f, &n, (int[]){0, 0, 0}, &n, &v);
    freed(&f);
    if (status == DWV_FAULT) {
        printf("fault %s %s at ", v.rule, v.name);
        if (strcmp(v.section, "file"))
            printf("%s+0x%08" PRIx32 " attribute 0x%" PRIx32 "\n", v.section, v.at, v.attribute);
        else
            printf("section %" PRIu32 "\n", v.at);
        NEED(n.frames == 0 && n.text == 0 && v.units == 0 && v.entries == 0 && v.types == 0);
    } else {
        NEED(status == (n.frames ? DWV_TOO_SHORT : DWV_SOUND) && dwv_check(file, length, &w) == DWV_SOUND);
        NEED(!memcmp(&v, &w, sizeof v));
        for (int k = 0; k < 3; k++) {
            if ((k == 0 && !count) || (k == 1 && !n.frames) || (k == 2 && !n.text))
                continue;
            int more[] = {k == 0 ? -1 : 0, k == 1 ? -1 : 1, k == 2 ? -1 : 0};
            NEED(called(file, length, addresses, count, &f, &n, more, &again, &w) == DWV_TOO_SHORT);
            NEED(!memcmp(&n, &again, sizeof n) && !memcmp(&v, &w, sizeof v));
            freed(&f);
        }
        status = called(file, length, addresses, count, &f, &n, (int[]){1, 1, 9}, &again, &w);
        NEED(status == DWV_SOUND && !memcmp(&n, &again, sizeof n) && !memcmp(&v, &w, sizeof v));
        NEED(is_untouched(f.located + count, sizeof *f.located) && is_untouched(f.text + n.text, 9));
        NEED(is_untouched(f.frames + n.frames, sizeof *f.frames));
        check_rows(&f, count, &n, &v);
        print(&f, count);
        freed(&f);
    }
    free(addresses);
    free(file);
    return (int)status;
}
