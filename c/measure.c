/* Prints every type and id of a pair of streams, and a function, with the length of its text and the number of indexes that are opened for it.
 *
 *     measure TYPES IDS
 *
 * All texts are measured first, over streams that were checked once. Then one block of just as many bytes as they take is lent to the text calls, part by
 * part. Beside what it prints it looks at what else yokberd.h says: the plain measure and the one over places answer the same, a byte less is refused, and a
 * refused measure leaves 0 in both numbers. The status is 1 where one of these is not so. */
#include <stdio.h>
#include <stdlib.h>
#include <string.h>

#include "yokberd.h"

enum { HEADER = 56, FUNCTION_TYPE = 0x1001 };

struct bytes {
    uint8_t *at;
    size_t len;
};

struct numbers {
    uint32_t *at;
    size_t len;
};

/* Both streams, what was noted of them, and places. */
struct streams {
    struct bytes types, ids;
    struct numbers checked, places;
};

enum call { TYPE, ID, FUNCTION };

struct measure {
    uint32_t number, detail;
    size_t length;
    uint64_t opened;
};

/* A line of the page: what is asked for, and what its measure is. */
struct line {
    enum call call;
    uint32_t flags, index;
    struct measure measure;
};

static const char *const call_name[] = {"type", "id", "function"};
static const uint8_t name[] = "step";

static void *room_for(size_t len) {
    void *at = malloc(len == 0 ? 1 : len); /* never null, as the library asks */
    if (at == NULL) {
        fprintf(stderr, "measure: no memory\n");
        exit(2);
    }
    return at;
}

static struct bytes read_file(const char *path) {
    struct bytes file = {NULL, 0};
    FILE *f = fopen(path, "rb");
    if (f == NULL || fseek(f, 0, SEEK_END) != 0) {
        fprintf(stderr, "measure: %s cannot be read\n", path);
        exit(2);
    }
    long end = ftell(f);
    rewind(f);
    file.len = end < 0 ? 0 : (size_t)end;
    file.at = room_for(file.len);
    if (fread(file.at, 1, file.len, f) != file.len) {
        fprintf(stderr, "measure: %s cannot be read\n", path);
        exit(2);
    }
    fclose(f);
    return file;
}

static struct streams read_streams(const char *types, const char *ids) {
    struct streams s = {read_file(types), read_file(ids), {NULL, 0}, {NULL, 0}};
    uint32_t few[YOKBERD_CHECKED], detail;
    s.checked.len = yokberd_check_streams(s.types.at, s.types.len, s.ids.at, s.ids.len, 8, few, YOKBERD_CHECKED);
    s.checked.at = room_for(s.checked.len * sizeof(uint32_t));
    yokberd_check_streams(s.types.at, s.types.len, s.ids.at, s.ids.len, 8, s.checked.at, s.checked.len);
    s.places.at = room_for((s.types.len / 256 + 1) * sizeof(uint32_t));
    yokberd_fill_places(s.types.at, s.types.len, s.places.at, s.types.len / 256 + 1, &detail, &s.places.len);
    return s;
}

/* Over streams that were checked once. */
static struct measure measured(const struct streams *s, const struct line *l) {
    struct measure m = {7, 7, 7, 7};
    struct bytes t = s->types, i = s->ids;
    struct numbers c = s->checked;
    if (l->call == TYPE)
        m.number = yokberd_checked_measure_type(t.at, t.len, c.at, c.len, l->flags, 8, l->index, &m.detail, &m.length, &m.opened);
    if (l->call == ID)
        m.number = yokberd_checked_measure_id(t.at, t.len, i.at, i.len, c.at, c.len, l->flags, 8, l->index, &m.detail, &m.length, &m.opened);
    if (l->call == FUNCTION)
        m.number = yokberd_checked_measure_function(t.at, t.len, c.at, c.len, l->flags, 8, name, 4, l->index, &m.detail, &m.length, &m.opened);
    return m;
}

/* The same by a plain call. */
static struct measure plainly(const struct streams *s, const struct line *l) {
    struct measure m = {7, 7, 7, 7};
    struct bytes t = s->types, i = s->ids;
    if (l->call == TYPE)
        m.number = yokberd_measure_type(t.at, t.len, l->flags, 8, l->index, &m.detail, &m.length, &m.opened);
    if (l->call == ID)
        m.number = yokberd_measure_id(t.at, t.len, i.at, i.len, l->flags, 8, l->index, &m.detail, &m.length, &m.opened);
    if (l->call == FUNCTION)
        m.number = yokberd_measure_function(t.at, t.len, l->flags, 8, name, 4, l->index, &m.detail, &m.length, &m.opened);
    return m;
}

/* The same over so many of the places. */
static struct measure over_places(const struct streams *s, size_t places, const struct line *l) {
    struct measure m = {7, 7, 7, 7};
    struct bytes t = s->types, i = s->ids;
    const uint32_t *p = s->places.at;
    if (l->call == TYPE)
        m.number = yokberd_placed_measure_type(t.at, t.len, p, places, l->flags, 8, l->index, &m.detail, &m.length, &m.opened);
    if (l->call == ID)
        m.number = yokberd_placed_measure_id(t.at, t.len, i.at, i.len, p, places, l->flags, 8, l->index, &m.detail, &m.length, &m.opened);
    if (l->call == FUNCTION)
        m.number = yokberd_placed_measure_function(t.at, t.len, p, places, l->flags, 8, name, 4, l->index, &m.detail, &m.length, &m.opened);
    return m;
}

static uint32_t written(const struct streams *s, const struct line *l, uint8_t *out, size_t out_len, uint32_t *detail, size_t *text_len) {
    struct bytes t = s->types, i = s->ids;
    struct numbers c = s->checked;
    if (l->call == TYPE)
        return yokberd_checked_format_type(t.at, t.len, c.at, c.len, out, out_len, l->flags, 8, l->index, detail, text_len);
    if (l->call == ID)
        return yokberd_checked_format_id(t.at, t.len, i.at, i.len, c.at, c.len, out, out_len, l->flags, 8, l->index, detail, text_len);
    return yokberd_checked_format_function(t.at, t.len, c.at, c.len, out, out_len, l->flags, 8, name, 4, l->index, detail, text_len);
}

static int same(struct measure a, struct measure b) {
    return a.number == b.number && a.detail == b.detail && a.length == b.length && a.opened == b.opened;
}

/* Whether a measure is what yokberd.h says, but for the text: as the others have it, and 0 where it is refused. Places that lack are 17. */
static int is_right(const struct streams *s, const struct line *l) {
    struct measure m = l->measure, lacking = {YOKBERD_WRONG_PLACE, 0, 0, 0};
    int good = same(m, plainly(s, l)) && same(m, over_places(s, s->places.len, l)) && (m.number == 0 ? m.detail == 0 : m.length == 0 && m.opened == 0);
    int asked = s->places.len > 0 && (m.number == YOKBERD_ACCEPTED || m.number > YOKBERD_TILING);
    return good && (!asked || same(lacking, over_places(s, 0, l)));
}

/* Writes a text to its part of the block, first with a byte too little. */
static int fill(const struct streams *s, const struct line *l, uint8_t *part) {
    uint32_t detail;
    size_t text_len, length = l->measure.length;
    if (length > 0 && written(s, l, part, length - 1, &detail, &text_len) != YOKBERD_NO_ROOM)
        return 0;
    return written(s, l, part, length, &detail, &text_len) == YOKBERD_ACCEPTED && text_len == length;
}

static void print(const struct line *l, const uint8_t *part) {
    const struct measure *m = &l->measure;
    printf("%s 0x%x, flags 0x%x: %zu bytes, %llu opened: ", call_name[l->call], (unsigned)l->index, (unsigned)l->flags, m->length,
           (unsigned long long)m->opened);
    if (m->number == YOKBERD_ACCEPTED)
        printf("%.*s\n", (int)m->length, (const char *)part);
    else
        printf("refused, %s, detail 0x%x\n", yokberd_refusal_text(m->number), (unsigned)m->detail);
}

static uint32_t word(struct bytes stream, size_t at) {
    const uint8_t *b = stream.at + at;
    return at + 4 > stream.len ? 0 : b[0] | (uint32_t)b[1] << 8 | (uint32_t)b[2] << 16 | (uint32_t)b[3] << 24;
}

/* The lines of the records of a stream and of the index behind them. Bytes 8 and 12 of the header have the first index and the one behind the last. */
static size_t add_records(struct line *lines, size_t count, enum call call, struct bytes stream) {
    uint32_t first = word(stream, 8), records = word(stream, 12) - first, most = (uint32_t)(stream.len / 4); /* a damaged header may say anything */
    for (uint32_t i = 0; stream.len >= HEADER && i <= records && i <= most; i++)
        lines[count++] = (struct line){call, 0, first + i, {0, 0, 0, 0}};
    return count;
}

static size_t add_functions(struct line *lines, size_t count) {
    lines[count++] = (struct line){FUNCTION, 0, FUNCTION_TYPE, {0, 0, 0, 0}};
    lines[count++] = (struct line){FUNCTION, YOKBERD_NO_ARGUMENTS, FUNCTION_TYPE, {0, 0, 0, 0}};
    lines[count++] = (struct line){FUNCTION, 0, 0, {0, 0, 0, 0}};
    return count;
}

int main(int argc, char **argv) {
    if (argc != 3) {
        fprintf(stderr, "usage: measure TYPES IDS\n");
        return 2;
    }
    struct streams s = read_streams(argv[1], argv[2]);
    /* a record has four bytes at least */
    struct line *lines = room_for((s.types.len / 4 + s.ids.len / 4 + 5) * sizeof *lines);
    size_t count = add_functions(lines, add_records(lines, add_records(lines, 0, TYPE, s.types), ID, s.ids)), total = 0;
    int good = 1;
    for (size_t i = 0; i < count; i++) {
        lines[i].measure = measured(&s, lines + i);
        good = good && is_right(&s, lines + i);
        total += lines[i].measure.length;
    }
    uint8_t *block = room_for(total), *part = block;
    for (size_t i = 0; i < count && good; i++) {
        good = lines[i].measure.number != YOKBERD_ACCEPTED || fill(&s, lines + i, part);
        print(lines + i, part);
        part += lines[i].measure.length;
    }
    printf("%zu bytes in all\n", total);
    free(s.types.at);
    free(s.ids.at);
    free(s.checked.at);
    free(s.places.at);
    free(lines);
    free(block);
    if (!good)
        fprintf(stderr, "measure: an answer is not what yokberd.h says\n");
    return good ? 0 : 1;
}
