/* Tests the calls over streams that were checked once.
 *
 *     checked TYPES IDS ..
 *
 * For each pair of files, and for damaged copies of them: over what yokberd_check_streams noted the calls and the sheet answer as the plain ones do, buffers
 * too; numbers that were never filled are refused; any numbers end in an answer. Prints how many calls were compared and how many had any numbers. The status
 * is 1 where something differs. */
#include <stdio.h>
#include <stdlib.h>
#include <string.h>

#include "yokberd.h"

enum { ROOM = 600, HEADER = 56, SETTINGS = 6, COMMANDS = 60, PAGE = 9000 };

struct bytes {
    uint8_t *at;
    size_t len;
};

struct numbers {
    uint32_t *at;
    size_t len;
};

/* What a call leaves: its number, what it says beside it, and the buffer. */
struct answer {
    uint32_t number, detail;
    uint64_t value;
    uint8_t out[ROOM];
};

enum call { FUNCTION, ID, TYPE, SIZE, CALLS };

static const uint32_t flags_of[SETTINGS] = {0, 0x17, 0x3f, 0, 0x40, 0};
static const uint32_t size_of[SETTINGS] = {8, 8, 4, 16, 8, 3};
static const size_t room_of[SETTINGS] = {ROOM, ROOM, 20, 0, ROOM, ROOM};

static uint64_t seed = 0x1003;

static uint32_t rnd(void) {
    seed += 0x9e3779b97f4a7c15u;
    uint64_t z = seed;
    z = (z ^ z >> 30) * 0xbf58476d1ce4e5b9u;
    z = (z ^ z >> 27) * 0x94d049bb133111ebu;
    return (uint32_t)(z ^ z >> 31);
}

static uint32_t below(uint32_t n) {
    return rnd() % n;
}

static void *room_for(size_t len) {
    void *at = malloc(len + 1); /* never null, as the library asks */
    if (at == NULL) {
        fprintf(stderr, "checked: no memory\n");
        exit(2);
    }
    return at;
}

static struct bytes read_file(const char *path) {
    struct bytes file = {NULL, 0};
    FILE *f = fopen(path, "rb");
    if (f == NULL || fseek(f, 0, SEEK_END) != 0) {
        fprintf(stderr, "checked: %s cannot be read\n", path);
        exit(2);
    }
    long end = ftell(f);
    rewind(f);
    file.len = end < 0 ? 0 : (size_t)end;
    file.at = room_for(file.len);
    if (fread(file.at, 1, file.len, f) != file.len) {
        fprintf(stderr, "checked: %s cannot be read\n", path);
        exit(2);
    }
    fclose(f);
    return file;
}

static struct bytes copy(struct bytes from) {
    struct bytes to = {room_for(from.len), from.len};
    memcpy(to.at, from.at, from.len);
    return to;
}

static uint32_t word(struct bytes stream, size_t at) {
    const uint8_t *b = stream.at + at;
    return at + 4 > stream.len ? 0 : b[0] | (uint32_t)b[1] << 8 | (uint32_t)b[2] << 16 | (uint32_t)b[3] << 24;
}

/* A call with settings of the tables above; a plain one where there are no numbers. */
static struct answer ask(struct bytes types, struct bytes ids, const struct numbers *n, enum call call, int s, uint32_t index) {
    static const uint8_t name[] = "step";
    struct answer a = {7, 7, 0, {0}};
    size_t len = 7;
    memset(a.out, 0xaa, ROOM);
    if (call == SIZE) {
        a.value = 7;
        a.number = n == NULL ? yokberd_get_type_size(types.at, types.len, size_of[s], index, &a.detail, &a.value)
                             : yokberd_checked_get_type_size(types.at, types.len, n->at, n->len, size_of[s], index, &a.detail, &a.value);
        return a;
    }
    if (call == FUNCTION)
        a.number = n == NULL ? yokberd_format_function(types.at, types.len, a.out, room_of[s], flags_of[s], size_of[s], name, 4, index, &a.detail, &len)
                             : yokberd_checked_format_function(types.at, types.len, n->at, n->len, a.out, room_of[s], flags_of[s], size_of[s], name, 4,
                                                               index, &a.detail, &len);
    if (call == ID)
        a.number = n == NULL ? yokberd_format_id(types.at, types.len, ids.at, ids.len, a.out, room_of[s], flags_of[s], size_of[s], index, &a.detail, &len)
                             : yokberd_checked_format_id(types.at, types.len, ids.at, ids.len, n->at, n->len, a.out, room_of[s], flags_of[s], size_of[s],
                                                         index, &a.detail, &len);
    if (call == TYPE)
        a.number = n == NULL ? yokberd_format_type(types.at, types.len, a.out, room_of[s], flags_of[s], size_of[s], index, &a.detail, &len)
                             : yokberd_checked_format_type(types.at, types.len, n->at, n->len, a.out, room_of[s], flags_of[s], size_of[s], index,
                                                           &a.detail, &len);
    a.value = len;
    return a;
}

static int same(const struct answer *a, const struct answer *b) {
    return a->number == b->number && a->detail == b->detail && a->value == b->value && memcmp(a->out, b->out, ROOM) == 0;
}

/* An index of a stream, or one beside it. */
static uint32_t some_index(struct bytes stream, uint32_t at) {
    static const uint32_t others[] = {0, 0x74, 0xfff, 0x7fffffff, 0x80000000, 0xffffffff};
    uint32_t first = word(stream, 8), count = word(stream, 12) - first;
    return at <= count ? first + at : others[(at - count - 1) % 6];
}

static uint32_t index_count(struct bytes stream) {
    uint32_t count = word(stream, 12) - word(stream, 8);
    return (count < 1000 ? count : 1000) + 7; /* a damaged header may say anything */
}

static struct numbers noted(struct bytes types, struct bytes ids, uint32_t stride, size_t len) {
    struct numbers n = {room_for(len * sizeof(uint32_t)), len};
    memset(n.at, 0xee, len * sizeof(uint32_t));
    yokberd_check_streams(types.at, types.len, ids.at, ids.len, stride, n.at, n.len);
    return n;
}

/* Every call over the numbers, compared with plain calls over streams: how many, or -1. */
static long compared(struct bytes types, struct bytes ids, const struct numbers *n, struct bytes plain_types, int step) {
    long calls = 0;
    for (int call = 0; call < CALLS; call++) {
        struct bytes stream = call == ID ? ids : types;
        for (uint32_t at = 0; at < index_count(stream); at += (uint32_t)step) {
            int s = (int)below(SETTINGS);
            uint32_t index = some_index(stream, at);
            struct answer got = ask(types, ids, n, (enum call)call, s, index), expected = ask(plain_types, ids, NULL, (enum call)call, s, index);
            if (!same(&got, &expected)) {
                fprintf(stderr, "checked: call %d of 0x%x over %zu numbers gives %u, 0x%x and not %u, 0x%x\n", call, (unsigned)index, n->len,
                        (unsigned)got.number, (unsigned)got.detail, (unsigned)expected.number, (unsigned)expected.detail);
                return -1;
            }
            calls++;
        }
    }
    return calls;
}

/* What a sheet call leaves: whether lines are left, how many bytes and lines it printed, and the page. */
struct page {
    uint32_t left;
    size_t bytes, lines;
    uint8_t out[PAGE];
};

/* A sheet of commands of all kinds, over indexes of the streams and others; some end in an unknown or cut command. */
static struct bytes some_sheet(struct bytes types, struct bytes ids) {
    struct bytes sheet = {room_for(COMMANDS * 21), 0};
    for (int i = 0; i < COMMANDS; i++) {
        static const uint8_t kinds[] = {0x01, 0x02, 0x10, 0x11, 0x12, 0x13, 0x10, 0x12};
        uint8_t kind = below(80) == 0 ? (uint8_t)rnd() : kinds[below(8)], *at = sheet.at + sheet.len;
        struct bytes stream = kind == 0x12 ? ids : types;
        uint32_t n = kind == 0x01 ? flags_of[below(SETTINGS)] : kind == 0x02 ? size_of[below(SETTINGS)] : some_index(stream, below(index_count(stream)));
        memset(at, 0, 21);
        at[0] = kind;
        for (int b = 0; b < 4; b++)
            at[1 + b] = (uint8_t)(n >> 8 * b);
        if (kind == 0x13)
            memcpy(at + 5, "step", 4);
        sheet.len += kind == 0x02 ? 2 : kind == 0x13 ? 21 : 5;
    }
    sheet.len -= below(4) == 0 ? below(5) : 0;
    return sheet;
}

/* The lines behind the first skip in so much room; plain where there are no numbers. */
static void print(struct page *p, struct bytes types, struct bytes ids, const struct numbers *n, struct bytes sheet, size_t room, size_t skip) {
    memset(p->out, 0xaa, PAGE);
    p->bytes = p->lines = 7;
    p->left = n == NULL ? yokberd_print_sheet(types.at, types.len, ids.at, ids.len, sheet.at, sheet.len, p->out, room, skip, &p->bytes, &p->lines)
                        : yokberd_checked_print_sheet(types.at, types.len, ids.at, ids.len, n->at, n->len, sheet.at, sheet.len, p->out, room, skip,
                                                      &p->bytes, &p->lines);
}

/* A sheet over the numbers, part by part, compared with the plain one over streams: how many parts, or -1. */
static long printed(struct bytes types, struct bytes ids, const struct numbers *n, struct bytes plain_types) {
    static struct page got, expected;
    struct bytes sheet = some_sheet(types, ids);
    long parts = 0;
    size_t skip = 0;
    do {
        size_t room = below(3) == 0 ? YOKBERD_LINE : PAGE;
        print(&got, types, ids, n, sheet, room, skip);
        print(&expected, plain_types, ids, NULL, sheet, room, skip);
        int equal = got.left == expected.left && got.bytes == expected.bytes && got.lines == expected.lines && memcmp(got.out, expected.out, PAGE) == 0;
        skip += got.lines;
        parts = equal ? parts + 1 : -1;
    } while (parts > 0 && got.left);
    if (parts < 0)
        fprintf(stderr, "checked: a sheet over %zu numbers differs behind line %zu\n", n->len, skip);
    free(sheet.at);
    return parts;
}

/* A sheet over any numbers ends, and writes whole lines and nothing behind them. */
static int ends(struct bytes types, struct bytes ids, const struct numbers *n) {
    static struct page p;
    struct bytes sheet = some_sheet(types, ids);
    size_t skip = 0;
    int good = 1;
    do {
        print(&p, types, ids, n, sheet, YOKBERD_LINE, skip);
        good = p.left <= 1 && p.bytes <= YOKBERD_LINE && (!p.left || p.lines > 0) && (p.bytes == 0 || p.out[p.bytes - 1] == '\n');
        for (size_t i = good ? p.bytes : PAGE; i < PAGE; i++)
            good = good && p.out[i] == 0xaa;
        skip += p.lines;
    } while (good && p.left);
    free(sheet.at);
    return good;
}

/* By several strides, with as many numbers as serve, fewer and more; and with numbers that were never filled. */
static long compare(struct bytes types, struct bytes ids) {
    static const uint32_t strides[] = {8, 1, 0, 64};
    long calls = 0;
    for (int i = 0; i < 4; i++) {
        uint32_t few[YOKBERD_CHECKED];
        size_t serving = yokberd_check_streams(types.at, types.len, ids.at, ids.len, strides[i], few, YOKBERD_CHECKED);
        size_t lengths[] = {serving, YOKBERD_CHECKED, (serving + YOKBERD_CHECKED) / 2, serving + 9};
        for (int j = 0; j < 4; j++) {
            struct numbers n = noted(types, ids, strides[i], lengths[j] < YOKBERD_CHECKED ? YOKBERD_CHECKED : lengths[j]);
            long more = compared(types, ids, &n, types, j == 0 ? 1 : 5), parts = printed(types, ids, &n, types);
            free(n.at);
            if (more < 0 || parts < 0)
                return -1;
            calls += more + parts;
        }
    }
    /* an unfilled or short array is as a type stream of no bytes */
    struct bytes none = {types.at, 0};
    struct numbers zeros = {calloc(100, sizeof(uint32_t)), 100}, brief = noted(types, ids, 8, YOKBERD_CHECKED - 1);
    if (zeros.at == NULL)
        return -1;
    long more = compared(types, ids, &zeros, none, 3), still = compared(types, ids, &brief, none, 3), parts = printed(types, ids, &zeros, none);
    free(zeros.at);
    free(brief.at);
    return more < 0 || still < 0 || parts < 0 ? -1 : calls + more + still + parts;
}

/* Any numbers: every call ends, and writes a text and nothing behind it, or zeros. */
static long any_numbers(struct bytes types, struct bytes ids) {
    uint32_t few[YOKBERD_CHECKED];
    size_t serving = yokberd_check_streams(types.at, types.len, ids.at, ids.len, 8, few, YOKBERD_CHECKED);
    struct numbers n = noted(types, ids, below(2) ? 8 : 0, serving + YOKBERD_CHECKED);
    uint32_t one_in = below(3) == 0 ? 1 : 6;
    for (size_t i = 0; i < n.len; i++)
        if (below(one_in) == 0)
            n.at[i] = below(3) == 0 ? rnd() : below(2) ? below((uint32_t)types.len + 3) : (uint32_t[]){0, 1, 56, 0x1000, 0x80000000, 0xffffffff}[below(6)];
    n.len -= below(4) == 0 ? below((uint32_t)n.len) : 0;
    long calls = 1;
    int good = ends(types, ids, &n);
    for (int call = 0; call < CALLS; call++)
        for (uint32_t at = 0; at < index_count(call == ID ? ids : types); at += 3) {
            int s = (int)below(SETTINGS);
            struct answer a = ask(types, ids, &n, (enum call)call, s, some_index(call == ID ? ids : types, at));
            int text = a.number == 0 && call != SIZE, refused = a.number != 0 && call != SIZE;
            good = good && a.number <= 15 && (a.number != 0 || a.detail == 0) && (a.number == 0 || a.value == 0) && (!text || a.value <= room_of[s]);
            for (size_t i = text && good ? a.value : 0; i < ROOM && call != SIZE; i++)
                good = good && a.out[i] == (refused && i < room_of[s] ? 0 : 0xaa);
            calls++;
        }
    free(n.at);
    return good ? calls : -1;
}

/* A byte of the header or of a record changed, or the stream cut. */
static void damage(struct bytes *stream) {
    if (below(5) == 0)
        stream->len = below((uint32_t)stream->len + 1);
    else if (stream->len > HEADER)
        stream->at[below(3) == 0 ? below(20) : HEADER + below((uint32_t)stream->len - HEADER)] = (uint8_t)rnd();
}

int main(int argc, char **argv) {
    long calls = 0, any = 0;
    for (int pair = 1; pair + 1 < argc; pair += 2) {
        struct bytes types = read_file(argv[pair]), ids = read_file(argv[pair + 1]);
        for (int round = 0; round < 12; round++) {
            struct bytes t = copy(types), i = copy(ids);
            for (int hurt = 0; hurt < round % 4; hurt++)
                damage(below(2) ? &t : &i);
            long more = compare(t, i), still = any_numbers(t, i);
            free(t.at);
            free(i.at);
            if (more < 0 || still < 0) {
                fprintf(stderr, "checked: %s, round %d: an answer is not what yokberd.h says\n", argv[pair], round);
                return 1;
            }
            calls += more;
            any += still;
        }
        free(types.at);
        free(ids.at);
    }
    printf("%ld calls as the plain ones, %ld with any numbers\n", calls, any);
    return calls > 0 ? 0 : 1;
}
