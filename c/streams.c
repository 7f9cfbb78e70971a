/* Reads streams out of damaged copies of a file, for tools/test-pdb.sh.
 *
 *     streams FILE <LIST
 *
 * A line of LIST is `STREAM ROOM LENGTH OFFSET VALUE`: the number of a stream, the length of the buffer, as many bytes of the file as are lent, and a number of
 * four bytes that is put at an offset before, if the offset is not -1. Prints for each what yokberd_read_stream returns, *at, *len and the Adler-32 sum of
 * the buffer, which had the byte 0xaa everywhere. */
#include <stdio.h>
#include <stdlib.h>
#include <string.h>

#include "yokberd.h"

enum { FIELD = 4, ADLER = 65521 };

struct bytes {
    uint8_t *at;
    size_t len;
};

static void *room_for(size_t len) {
    void *at = malloc(len + 1); /* never null, as the library asks */
    if (at == NULL) {
        fprintf(stderr, "streams: no memory\n");
        exit(2);
    }
    return at;
}

static struct bytes read_file(const char *path) {
    struct bytes file = {NULL, 0};
    FILE *f = fopen(path, "rb");
    if (f == NULL || fseek(f, 0, SEEK_END) != 0) {
        fprintf(stderr, "streams: %s cannot be read\n", path);
        exit(2);
    }
    long end = ftell(f);
    rewind(f);
    file.len = end < 0 ? 0 : (size_t)end;
    file.at = room_for(file.len);
    if (fread(file.at, 1, file.len, f) != file.len) {
        fprintf(stderr, "streams: %s cannot be read\n", path);
        exit(2);
    }
    fclose(f);
    return file;
}

static uint32_t adler(const uint8_t *at, size_t len) {
    uint32_t a = 1, b = 0;
    for (size_t i = 0; i < len; i++) {
        a = (a + at[i]) % ADLER;
        b = (b + a) % ADLER;
    }
    return b << 16 | a;
}

/* One call over bytes of exactly the lent length, so that a sanitizer sees a step beyond them. */
static void ask(struct bytes file, uint32_t stream, size_t room, size_t lent) {
    uint8_t *copy = malloc(lent ? lent : 1), *out = malloc(room ? room : 1);
    size_t at = 7, len = 7;
    if (copy == NULL || out == NULL) {
        fprintf(stderr, "streams: no memory\n");
        exit(2);
    }
    memcpy(copy, file.at, lent);
    memset(out, 0xaa, room);
    uint32_t number = yokberd_read_stream(copy, lent, stream, out, room, &at, &len);
    printf("%u %zu %zu %u\n", (unsigned)number, at, len, (unsigned)adler(out, room));
    free(copy);
    free(out);
}

static void put(uint8_t *at, uint32_t value) {
    for (int i = 0; i < FIELD; i++)
        at[i] = (uint8_t)(value >> 8 * i);
}

int main(int argc, char **argv) {
    if (argc != 2) {
        fprintf(stderr, "usage: streams FILE <LIST\n");
        return 2;
    }
    struct bytes file = read_file(argv[1]);
    unsigned stream, value;
    size_t room, lent;
    long offset;
    while (scanf("%u %zu %zu %ld %u", &stream, &room, &lent, &offset, &value) == 5) {
        uint8_t before[FIELD] = {0};
        int set = offset >= 0 && (size_t)offset + FIELD <= file.len;
        if (lent > file.len || (offset >= 0 && !set)) {
            fprintf(stderr, "streams: a line asks for more than the file has\n");
            return 2;
        }
        if (set) {
            memcpy(before, file.at + offset, FIELD);
            put(file.at + offset, value);
        }
        ask(file, stream, room, lent);
        if (set)
            memcpy(file.at + offset, before, FIELD);
    }
    free(file.at);
    return 0;
}
