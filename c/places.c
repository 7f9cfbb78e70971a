/* Tests the record places kept beside the type stream.
 *
 *     places TYPES IDS ..
 *
 * For each pair of files, for types with fewer and more of the same records, and for damaged copies: yokberd_fill_places leaves in buffers of several
 * lengths what yokberd.h says, with places that are found here by going from record to record; over right and longer places the calls answer as the plain
 * ones do, buffers too; short and wrong ones are refused by their first entry that is not right. Prints how many buffers were filled and how many calls
 * were compared. The status is 1 where something differs. */
#include <stdio.h>
#include <stdlib.h>
#include <string.h>

#include "yokberd.h"

enum { ROOM = 600, HEADER = 56, APART = 64, SETTINGS = 6, ROUNDS = 40 };

struct bytes {
    uint8_t *at;
    size_t len;
};

struct places {
    uint32_t *at;
    size_t len;
};

/* What a call leaves: its number, what it says beside it, and the buffer. */
struct answer {
    uint32_t number, detail;
    uint64_t value;
    uint8_t out[ROOM];
};

enum call { FUNCTION, ID, TYPE, SIZE, CALLS };

/* How the places that are lent differ from the right ones. */
enum way { RIGHT, MORE, FEWER, WRONG, FEWER_AND_WRONG, NOISE, WAYS };

static const uint32_t flags_of[SETTINGS] = {0, 0x17, 0x3f, 0, 0x200, 0};
static const uint32_t size_of[SETTINGS] = {8, 8, 4, 16, 8, 3};
static const size_t room_of[SETTINGS] = {ROOM, ROOM, 20, 0, ROOM, ROOM};

static uint64_t seed = 0x1117;

static uint32_t rnd(void) {
    seed += 0x9e3779b97f4a7c15u;
    uint64_t z = seed;
    z = (z ^ z >> 30) * 0xbf58476d1ce4e5b9u;
    z = (z ^ z >> 27) * 0x94d049bb133111ebu;
    return (uint32_t)(z ^ z >> 31);
}

static uint32_t below(uint32_t n) {
    return rnd() % n;
}

static void *room_for(size_t len) {
    void *at = malloc(len + 1); /* never null, as the library asks */
    if (at == NULL) {
        fprintf(stderr, "places: no memory\n");
        exit(2);
    }
    return at;
}

static struct bytes read_file(const char *path) {
    struct bytes file = {NULL, 0};
    FILE *f = fopen(path, "rb");
    if (f == NULL || fseek(f, 0, SEEK_END) != 0) {
        fprintf(stderr, "places: %s cannot be read\n", path);
        exit(2);
    }
    long end = ftell(f);
    rewind(f);
    file.len = end < 0 ? 0 : (size_t)end;
    file.at = room_for(file.len);
    if (fread(file.at, 1, file.len, f) != file.len) {
        fprintf(stderr, "places: %s cannot be read\n", path);
        exit(2);
    }
    fclose(f);
    return file;
}

static uint32_t word(struct bytes stream, size_t at) {
    const uint8_t *b = stream.at + at;
    return at + 4 > stream.len ? 0 : b[0] | (uint32_t)b[1] << 8 | (uint32_t)b[2] << 16 | (uint32_t)b[3] << 24;
}

static void put(uint8_t *at, uint32_t value) {
    for (int i = 0; i < 4; i++)
        at[i] = (uint8_t)(value >> 8 * i);
}

static uint32_t record_count(struct bytes stream) {
    return word(stream, 12) - word(stream, 8);
}

static size_t record_len(struct bytes stream, size_t at) {
    return 2 + (stream.at[at] | (size_t)stream.at[at + 1] << 8);
}

static struct bytes copy(struct bytes from) {
    struct bytes to = {room_for(from.len), from.len};
    memcpy(to.at, from.at, from.len);
    return to;
}

/* So many records, those of a stream over and over, under a header that says so. */
static struct bytes with_records(struct bytes from, uint32_t count) {
    uint32_t own = record_count(from);
    struct bytes to = {room_for(HEADER + (count / own + 1) * (size_t)word(from, 16)), HEADER};
    memcpy(to.at, from.at, HEADER);
    size_t at = HEADER;
    for (uint32_t i = 0; i < count; i++) {
        at = i % own == 0 ? HEADER : at;
        size_t len = record_len(from, at);
        memcpy(to.at + to.len, from.at + at, len);
        to.len += len;
        at += len;
    }
    put(to.at + 12, word(from, 8) + count);
    put(to.at + 16, (uint32_t)(to.len - HEADER));
    return to;
}

/* The number by which every call over these types is refused before its walk, or 0. */
static uint32_t refusal_of(struct bytes types) {
    uint32_t detail;
    uint64_t size;
    return yokberd_get_type_size(types.at, types.len, 8, 0x74, &detail, &size);
}

/* The places of a stream, found record by record; none where it is refused. */
static struct places right_places(struct bytes types) {
    uint32_t count = refusal_of(types) ? 0 : record_count(types);
    struct places right = {room_for((count + APART - 1) / APART * sizeof(uint32_t)), 0};
    size_t at = HEADER;
    for (uint32_t i = 0; i < count; i++) {
        if (i % APART == 0)
            right.at[right.len++] = (uint32_t)at;
        at += record_len(types, at);
    }
    return right;
}

/* Whether what the pass leaves in a buffer of so many entries is what yokberd.h says. */
static int filled(struct bytes types, struct places right, size_t len) {
    const uint32_t before = 0xeeeeeeee;
    uint32_t *lent = room_for(len * sizeof *lent), detail = 7, number = refusal_of(types);
    size_t entries = 7;
    memset(lent, 0xee, len * sizeof *lent);
    if (number == 0 && len < right.len)
        number = YOKBERD_WRONG_PLACE;
    uint32_t said = yokberd_fill_places(types.at, types.len, lent, len, &detail, &entries);
    int good = said == number && detail == (number == YOKBERD_WRONG_PLACE ? len : 0) && entries == (number ? 0 : right.len);
    for (size_t i = 0; i < len; i++)
        good = good && lent[i] == (number ? 0 : i < right.len ? right.at[i] : before);
    free(lent);
    if (!good)
        fprintf(stderr, "places: the pass over %zu entries gives %u, 0x%x, %zu or other entries\n", len, (unsigned)said, (unsigned)detail, entries);
    return good;
}

/* Buffers from none to more than are needed: how many, or -1. */
static long all_filled(struct bytes types, struct places right) {
    size_t lengths[] = {0, 1, right.len / 2, right.len == 0 ? 0 : right.len - 1, right.len, right.len + 1, right.len + 40, types.len / 256 + 1};
    size_t count = sizeof lengths / sizeof *lengths;
    for (size_t i = 0; i < count; i++)
        if (!filled(types, right, lengths[i]))
            return -1;
    return (long)count;
}

/* Places to lend, in a buffer of just their length. */
static struct places some_places(struct places right, enum way way) {
    uint32_t entries = (uint32_t)right.len;
    uint32_t len = way == MORE ? entries + 1 + below(9) : way == FEWER || way == FEWER_AND_WRONG ? below(entries + 1) : entries;
    struct places lent = {room_for(len * sizeof(uint32_t)), len};
    for (uint32_t i = 0; i < len; i++)
        lent.at[i] = i < entries && way != NOISE ? right.at[i] : rnd();
    uint32_t changes = (way == WRONG || way == FEWER_AND_WRONG) && len > 0 ? 1 + below(2) : 0;
    for (uint32_t i = 0; i < changes; i++) {
        uint32_t *entry = lent.at + below(len);
        *entry = (uint32_t[]){*entry + 1, *entry - 1, *entry + 2, *entry + 4, *entry - HEADER, 0, *entry | 0x80000000, rnd()}[below(8)];
    }
    return lent;
}

/* The first entry that is lacking or not right; as many as there are where none is. */
static size_t first_wrong(struct places right, struct places lent) {
    size_t at = 0;
    while (at < right.len && at < lent.len && lent.at[at] == right.at[at])
        at++;
    return at;
}

/* A call with settings of the tables above; a plain one where there are no places. */
static struct answer ask(struct bytes types, struct bytes ids, const struct places *p, enum call call, int s, uint32_t index) {
    static const uint8_t name[] = "step";
    struct answer a = {7, 7, 0, {0}};
    size_t len = 7;
    memset(a.out, 0xaa, ROOM);
    if (call == SIZE) {
        a.value = 7;
        a.number = p == NULL ? yokberd_get_type_size(types.at, types.len, size_of[s], index, &a.detail, &a.value)
                             : yokberd_placed_get_type_size(types.at, types.len, p->at, p->len, size_of[s], index, &a.detail, &a.value);
        return a;
    }
    if (call == FUNCTION)
        a.number = p == NULL ? yokberd_format_function(types.at, types.len, a.out, room_of[s], flags_of[s], size_of[s], name, 4, index, &a.detail, &len)
                             : yokberd_placed_format_function(types.at, types.len, p->at, p->len, a.out, room_of[s], flags_of[s], size_of[s], name, 4,
                                                              index, &a.detail, &len);
    if (call == ID)
        a.number = p == NULL ? yokberd_format_id(types.at, types.len, ids.at, ids.len, a.out, room_of[s], flags_of[s], size_of[s], index, &a.detail, &len)
                             : yokberd_placed_format_id(types.at, types.len, ids.at, ids.len, p->at, p->len, a.out, room_of[s], flags_of[s], size_of[s],
                                                        index, &a.detail, &len);
    if (call == TYPE)
        a.number = p == NULL ? yokberd_format_type(types.at, types.len, a.out, room_of[s], flags_of[s], size_of[s], index, &a.detail, &len)
                             : yokberd_placed_format_type(types.at, types.len, p->at, p->len, a.out, room_of[s], flags_of[s], size_of[s], index,
                                                          &a.detail, &len);
    a.value = len;
    return a;
}

/* What the plain call answers, or refusal 17 in its place in the order. */
static struct answer expected(struct bytes types, struct bytes ids, enum call call, int s, uint32_t index, int is_wrong, size_t entry) {
    struct answer a = ask(types, ids, NULL, call, s, index);
    if (is_wrong && (a.number == YOKBERD_ACCEPTED || a.number > YOKBERD_TILING)) {
        a.number = YOKBERD_WRONG_PLACE;
        a.detail = (uint32_t)entry;
        a.value = 0;
        memset(a.out, 0, call == SIZE ? 0 : room_of[s]);
    }
    return a;
}

static int same(const struct answer *a, const struct answer *b) {
    return a->number == b->number && a->detail == b->detail && a->value == b->value && memcmp(a->out, b->out, ROOM) == 0;
}

/* An index of a stream, or one beside it. */
static uint32_t some_index(struct bytes stream, uint32_t at) {
    static const uint32_t others[] = {0, 0x74, 0xfff, 0x7fffffff, 0x80000000, 0xffffffff};
    uint32_t count = record_count(stream);
    return at <= count ? word(stream, 8) + at : others[(at - count - 1) % 6];
}

/* Calls of all kinds over the places that are lent, compared: how many, or -1. */
static long compared(struct bytes types, struct bytes ids, struct places right, struct places lent) {
    size_t wrong = first_wrong(right, lent);
    long calls = 0;
    for (int call = 0; call < CALLS; call++) {
        struct bytes stream = call == ID ? ids : types;
        uint32_t count = record_count(stream), most = (count < 2000 ? count : 2000) + 7; /* a damaged header may say anything */
        for (uint32_t at = below(9); at < most; at += 1 + below(9)) {
            int s = (int)below(SETTINGS);
            uint32_t index = some_index(stream, at);
            struct answer got = ask(types, ids, &lent, (enum call)call, s, index);
            struct answer right_one = expected(types, ids, (enum call)call, s, index, wrong < right.len, wrong);
            if (!same(&got, &right_one)) {
                fprintf(stderr, "places: call %d of 0x%x over %zu entries gives %u, 0x%x and not %u, 0x%x\n", call, (unsigned)index, lent.len,
                        (unsigned)got.number, (unsigned)got.detail, (unsigned)right_one.number, (unsigned)right_one.detail);
                return -1;
            }
            calls++;
        }
    }
    return calls;
}

/* A byte of the header or of a record changed, or the stream cut. */
static void damage(struct bytes *stream) {
    if (below(5) == 0)
        stream->len = below((uint32_t)stream->len + 1);
    else if (stream->len > HEADER)
        stream->at[below(3) == 0 ? below(20) : HEADER + below((uint32_t)stream->len - HEADER)] = (uint8_t)rnd();
}

/* One pair of streams with all that may be lent; adds up what was compared. 0 where something differs. */
static int compare(struct bytes types, struct bytes ids, long *buffers, long *calls) {
    struct places right = right_places(types);
    long more = all_filled(types, right);
    *buffers += more;
    for (int way = 0; way < WAYS && more >= 0; way++) {
        struct places lent = some_places(right, (enum way)way);
        more = compared(types, ids, right, lent);
        *calls += more;
        free(lent.at);
    }
    free(right.at);
    return more >= 0;
}

int main(int argc, char **argv) {
    static const uint32_t counts[] = {0, 1, 63, 64, 65, 128, 129, 192, 1000};
    long buffers = 0, calls = 0;
    for (int pair = 1; pair + 1 < argc; pair += 2) {
        struct bytes types = read_file(argv[pair]), ids = read_file(argv[pair + 1]);
        for (int round = 0; round < ROUNDS; round++) {
            struct bytes t = round % 10 == 0 ? copy(types) : with_records(types, counts[round % 10 - 1]), i = copy(ids);
            for (int hurt = 0; hurt < round / 10; hurt++)
                damage(below(2) ? &t : &i);
            int good = compare(t, i, &buffers, &calls);
            free(t.at);
            free(i.at);
            if (!good) {
                fprintf(stderr, "places: %s, round %d: an answer is not what yokberd.h says\n", argv[pair], round);
                return 1;
            }
        }
        free(types.at);
        free(ids.at);
    }
    printf("%ld buffers filled, %ld calls compared\n", buffers, calls);
    return calls > 0 ? 0 : 1;
}
