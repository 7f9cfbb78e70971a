/* Prints every id of a .pdb file with its text, many in one call.
 *
 *     pdb FILE.pdb
 *
 * Beside what it prints it looks at what the buffers hold, and ends with status 1 where that is not what yokberd.h says. */
#include <stdio.h>
#include <stdlib.h>
#include <string.h>

#include "yokberd.h"

#define ID_FLAGS (YOKBERD_NO_MEMBER_FUNCTION_STATIC | YOKBERD_SPACE_AFTER_COMMA | YOKBERD_SPACE_BEFORE_POINTER | YOKBERD_NAME_ONLY)

/* Both are small, so that the ids are done in many calls. */
enum { ROOM = 200, BATCH = 16, HEADER = 56, STATUS_DIFFERS = 1, STATUS_UNREAD = 2 };

struct bytes {
    uint8_t *at;
    size_t len;
};

static void *room_for(size_t len) {
    void *at = malloc(len + 1); /* never null, as the library asks */
    if (at == NULL) {
        fprintf(stderr, "pdb: no memory\n");
        exit(STATUS_UNREAD);
    }
    return at;
}

static struct bytes read_file(const char *path) {
    struct bytes file = {NULL, 0};
    FILE *f = fopen(path, "rb");
    if (f == NULL || fseek(f, 0, SEEK_END) != 0) {
        fprintf(stderr, "pdb: %s cannot be read\n", path);
        exit(STATUS_UNREAD);
    }
    long end = ftell(f);
    rewind(f);
    file.len = end < 0 ? 0 : (size_t)end;
    file.at = room_for(file.len);
    if (fread(file.at, 1, file.len, f) != file.len) {
        fprintf(stderr, "pdb: %s cannot be read\n", path);
        exit(STATUS_UNREAD);
    }
    fclose(f);
    return file;
}

/* A stream: its length first, then its bytes. A program that was linked without an id stream has no ids. */
static struct bytes read_stream(struct bytes file, uint32_t number) {
    uint8_t none = 0;
    size_t at, len;
    struct bytes stream = {NULL, 0};
    uint32_t said = yokberd_read_stream(file.at, file.len, number, &none, 0, &at, &len);
    if (said == YOKBERD_CONTAINER_NO_ROOM) {
        stream.len = at;
        stream.at = room_for(at);
        said = yokberd_read_stream(file.at, file.len, number, stream.at, stream.len, &at, &len);
    }
    if (said == YOKBERD_CONTAINER_NO_STREAM && number == YOKBERD_IDS_STREAM)
        said = YOKBERD_CONTAINER_READ;
    if (said != YOKBERD_CONTAINER_READ || len != stream.len) {
        fprintf(stderr, "pdb: stream %u: %s (%zu)\n", (unsigned)number, yokberd_container_text(said), at);
        exit(STATUS_UNREAD);
    }
    return stream.at == NULL ? (struct bytes){room_for(0), 0} : stream;
}

static uint32_t word(const uint8_t *at) {
    return at[0] | (uint32_t)at[1] << 8 | (uint32_t)at[2] << 16 | (uint32_t)at[3] << 24;
}

struct checked {
    uint32_t *at;
    size_t len;
};

static struct checked check(struct bytes types, struct bytes ids) {
    uint32_t few[YOKBERD_CHECKED];
    struct checked checked = {NULL, yokberd_check_streams(types.at, types.len, ids.at, ids.len, 8, few, YOKBERD_CHECKED)};
    checked.at = room_for(checked.len * sizeof *checked.at);
    yokberd_check_streams(types.at, types.len, ids.at, ids.len, 8, checked.at, checked.len);
    return checked;
}

static void print_answers(const uint32_t *indexes, size_t count, const uint64_t *answers, const uint8_t *out) {
    for (size_t i = 0; i < count; i++) {
        const uint64_t *answer = answers + YOKBERD_ANSWER * i;
        if (answer[0] == YOKBERD_ACCEPTED)
            printf("0x%x %.*s\n", (unsigned)indexes[i], (int)answer[3], (const char *)out + answer[2]);
        else
            printf("0x%x refused: %s, detail 0x%x\n", (unsigned)indexes[i], yokberd_refusal_text((uint32_t)answer[0]), (unsigned)answer[1]);
    }
}

static int zeros(const uint8_t *out, size_t from) {
    while (from < ROOM && out[from] == 0)
        from++;
    return from == ROOM;
}

/* Whether the texts lie one behind another, with zeros behind them. */
static int laid(const uint64_t *answers, size_t count, const uint8_t *out) {
    size_t at = 0;
    for (size_t i = 0; i < count; i++) {
        const uint64_t *answer = answers + YOKBERD_ANSWER * i;
        if (answer[0] == YOKBERD_ACCEPTED && answer[2] != at)
            return 0;
        at += (size_t)answer[3];
    }
    return zeros(out, at);
}

/* A batch of indexes, in as many calls as the room asks for: whether all was as it should be. */
static int print_batch(struct bytes types, struct bytes ids, struct checked checked, const uint32_t *indexes, size_t count) {
    uint8_t out[ROOM];
    uint64_t answers[YOKBERD_ANSWER * BATCH];
    size_t done = 0;
    while (done < count) {
        memset(out, 0xaa, ROOM);
        size_t more = yokberd_checked_format_ids(types.at, types.len, ids.at, ids.len, checked.at, checked.len, out, ROOM, ID_FLAGS, 8, indexes + done,
                                                 count - done, answers, YOKBERD_ANSWER * BATCH);
        if (more == 0 || more > count - done || !laid(answers, more, out))
            return 0;
        print_answers(indexes + done, more, answers, out);
        done += more;
    }
    return 1;
}

/* Every index of the id stream: bytes 8 and 12 of its header have the first one and the one behind the last. With no bytes there is none. */
static int print_ids(struct bytes types, struct bytes ids) {
    if (ids.len < HEADER)
        return ids.len == 0;
    struct checked checked = check(types, ids);
    uint32_t first = word(ids.at + 8), count = word(ids.at + 12) - first;
    uint32_t *indexes = room_for(count * sizeof *indexes);
    for (uint32_t i = 0; i < count; i++)
        indexes[i] = first + i;
    int good = print_batch(types, ids, checked, indexes, count);
    free(indexes);
    free(checked.at);
    return good;
}

/* Whether a number's text is that of no number before it, and not that of none. */
static int is_own(const char *(*text)(uint32_t), uint32_t number) {
    uint32_t other = 0;
    while (other < number && strcmp(text(other), text(number)) != 0)
        other++;
    return other == number && strcmp(text(number), text(UINT32_MAX)) != 0;
}

static int texts(const char *(*text)(uint32_t), uint32_t last) {
    int good = strcmp(text(last + 1), text(UINT32_MAX)) == 0;
    for (uint32_t number = 0; number <= last; number++)
        good = good && is_own(text, number);
    return good;
}

int main(int argc, char **argv) {
    if (argc != 2) {
        fprintf(stderr, "usage: pdb FILE.pdb\n");
        return STATUS_UNREAD;
    }
    struct bytes file = read_file(argv[1]), types = read_stream(file, YOKBERD_TYPES_STREAM), ids = read_stream(file, YOKBERD_IDS_STREAM);
    int good = print_ids(types, ids) && texts(yokberd_refusal_text, YOKBERD_WRONG_PLACE) &&
               texts(yokberd_container_text, YOKBERD_CONTAINER_NO_ROOM) && YOKBERD_DEFAULT_FLAGS == 0x17;
    free(file.at);
    free(types.at);
    free(ids.at);
    if (!good)
        fprintf(stderr, "pdb: a buffer or a number is not what yokberd.h says\n");
    return good ? 0 : STATUS_DIFFERS;
}
