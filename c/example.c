/* Prints every id of a pair of streams with its text, over streams that were checked once; then plain calls, and a sheet.
 *
 *     example TYPES IDS
 *
 * Beside what it prints it looks at what the buffers hold, and ends with status 1 where that is not what yokberd.h says. */
#include <stdio.h>
#include <stdlib.h>
#include <string.h>

#include "yokberd.h"

#define ID_FLAGS (YOKBERD_NO_MEMBER_FUNCTION_STATIC | YOKBERD_SPACE_AFTER_COMMA | YOKBERD_SPACE_BEFORE_POINTER | YOKBERD_NAME_ONLY)

enum { ROOM = 4096, HEADER = 56 };

struct bytes {
    uint8_t *at;
    size_t len;
};

static struct bytes read_file(const char *path) {
    struct bytes file = {NULL, 0};
    FILE *f = fopen(path, "rb");
    if (f == NULL || fseek(f, 0, SEEK_END) != 0) {
        fprintf(stderr, "example: %s cannot be read\n", path);
        exit(2);
    }
    long end = ftell(f);
    rewind(f);
    file.len = end < 0 ? 0 : (size_t)end;
    file.at = malloc(file.len + 1); /* never null, as the library asks */
    if (file.at == NULL || fread(file.at, 1, file.len, f) != file.len) {
        fprintf(stderr, "example: %s cannot be read\n", path);
        exit(2);
    }
    fclose(f);
    return file;
}

static uint32_t word(const uint8_t *at) {
    return at[0] | (uint32_t)at[1] << 8 | (uint32_t)at[2] << 16 | (uint32_t)at[3] << 24;
}

/* Whether all bytes from a place on are this one. */
static int all(const uint8_t *out, size_t from, uint8_t byte) {
    for (size_t i = from; i < ROOM; i++)
        if (out[i] != byte)
            return 0;
    return 1;
}

struct checked {
    uint32_t *at;
    size_t len;
};

/* Both streams checked once, for many calls: as many numbers as serve. */
static struct checked check(struct bytes types, struct bytes ids) {
    uint32_t few[YOKBERD_CHECKED];
    struct checked checked = {NULL, yokberd_check_streams(types.at, types.len, ids.at, ids.len, 8, few, YOKBERD_CHECKED)};
    checked.at = malloc(checked.len * sizeof *checked.at);
    if (checked.at == NULL) {
        fprintf(stderr, "example: no memory\n");
        exit(2);
    }
    yokberd_check_streams(types.at, types.len, ids.at, ids.len, 8, checked.at, checked.len);
    return checked;
}

static int print_id(struct bytes types, struct bytes ids, struct checked checked, uint32_t index) {
    uint8_t out[ROOM];
    uint32_t detail;
    size_t text_len;
    memset(out, 0xaa, ROOM);
    uint32_t number = yokberd_checked_format_id(types.at, types.len, ids.at, ids.len, checked.at, checked.len, out, ROOM, ID_FLAGS, 8, index, &detail,
                                                &text_len);
    if (number == YOKBERD_ACCEPTED) {
        printf("0x%x %.*s\n", (unsigned)index, (int)text_len, (const char *)out);
        return detail == 0 && all(out, text_len, 0xaa);
    }
    printf("0x%x refused: %u, detail 0x%x\n", (unsigned)index, (unsigned)number, (unsigned)detail);
    return text_len == 0 && all(out, 0, 0);
}

static int print_function(struct bytes types, const char *name, uint32_t index) {
    uint8_t out[ROOM];
    uint32_t detail;
    size_t text_len;
    uint32_t number = yokberd_format_function(types.at, types.len, out, ROOM, 0, 8, (const uint8_t *)name, strlen(name), index, &detail, &text_len);
    if (number != YOKBERD_ACCEPTED)
        return 0;
    printf("function 0x%x %.*s\n", (unsigned)index, (int)text_len, (const char *)out);
    /* a buffer one byte too short: refused, and zeros */
    size_t room = text_len - 1;
    memset(out, 0xaa, ROOM);
    number = yokberd_format_function(types.at, types.len, out, room, 0, 8, (const uint8_t *)name, strlen(name), index, &detail, &text_len);
    for (size_t i = 0; i < room; i++)
        if (out[i] != 0)
            return 0;
    return number == YOKBERD_NO_ROOM && detail == 0 && text_len == 0 && all(out, room, 0xaa);
}

static int print_type(struct bytes types, uint32_t index) {
    uint8_t out[ROOM];
    uint32_t detail;
    size_t text_len;
    uint64_t size;
    if (yokberd_format_type(types.at, types.len, out, ROOM, 0, 8, index, &detail, &text_len) != YOKBERD_ACCEPTED)
        return 0;
    if (yokberd_get_type_size(types.at, types.len, 8, index, &detail, &size) != YOKBERD_ACCEPTED)
        return 0;
    printf("type 0x%x %.*s, %llu bytes\n", (unsigned)index, (int)text_len, (const char *)out, (unsigned long long)size);
    return yokberd_get_type_size(types.at, types.len, 5, index, &detail, &size) == YOKBERD_POINTER_SIZE && detail == 5 && size == 0;
}

static int print_sheet(struct bytes types, struct bytes ids) {
    static const uint8_t sheet[] = {0x01, 0x10, 0, 0, 0, 0x12, 0x01, 0x10, 0, 0, 0x11, 0x40, 0, 0, 0, 0x10, 0x74, 6, 0, 0, 0xff};
    uint8_t out[YOKBERD_LINE];
    size_t skip = 0, bytes, lines;
    uint32_t left;
    do {
        left = yokberd_print_sheet(types.at, types.len, ids.at, ids.len, sheet, sizeof sheet, out, sizeof out, skip, &bytes, &lines);
        fwrite(out, 1, bytes, stdout);
        skip += lines;
    } while (left != 0);
    return skip == 4;
}

int main(int argc, char **argv) {
    if (argc != 3) {
        fprintf(stderr, "usage: example TYPES IDS\n");
        return 2;
    }
    struct bytes types = read_file(argv[1]), ids = read_file(argv[2]);
    struct checked checked = check(types, ids);
    /* bytes 8 and 12 of the header have the first index and the one behind the last; no bytes are no ids, and any index is missing then */
    int whole = ids.len >= HEADER, good = whole || ids.len == 0;
    for (uint32_t index = whole ? word(ids.at + 8) : 0x1001, end = whole ? word(ids.at + 12) : 0x1002; good && index < end; index++)
        good = print_id(types, ids, checked, index);
    good = good && print_function(types, "advance", 0x1001) && print_type(types, 0x640) && print_sheet(types, ids);
    free(types.at);
    free(ids.at);
    free(checked.at);
    if (!good)
        fprintf(stderr, "example: a buffer or a number is not what yokberd.h says\n");
    return good ? 0 : 1;
}
