/* C++ signatures such as `advance(float)` from CodeView type and id indexes, and the streams of .pdb files that they are made of.
 *
 * `tools/staticlib.sh` builds the library, target/staticlib/libyokberd.a, for Linux on x86-64, and beside it yokberd.pc, by which pkg-config finds both. Every
 * function in it is proved to meet its contract (crates/yokberd/src/lib.rt): no bytes and no numbers make a call loop, read or write outside what it was
 * lent, or answer by what was asked before.
 *
 * What a call asks of its caller is what C cannot state in a type:
 *
 * - No pointer is null, one with a length of 0 too. Each is aligned and points to as many elements as its length says, of at most PTRDIFF_MAX bytes.
 * - What a call writes (out, checked and places where they are filled, answers, detail, text_len, length, opened, size, bytes, lines, at, len, filled)
 *   overlaps nothing else that it is lent, and no other thread touches it during the call. What it only reads is changed by no one during the call. Calls
 *   from any number of threads may share what is only read.
 * - 512 KiB of stack. A thread of glibc has 8 MiB where nothing else is said.
 *
 * A call keeps nothing, allocates nothing and calls nothing but memcpy and memset.
 *
 * Time. The plain calls pass over all records of their streams first, to check them; those over places do so too, and look types up faster then. For many
 * calls over the same streams check these once, below: then a call takes as long as its text asks for, however long the streams are; or put the calls into
 * a sheet. (docs/BENCHMARKS.md has figures.)
 *
 * Streams that are made to take long are bounded by a product. For each byte of text that out has room for, a call opens at most 95 indexes. To open one it
 * passes over the records from the nearest noted place on, at most as many as these are apart (stride less one; 63 types in a call over places; in a plain
 * call up to a 64th of the stream's records, in a sheet up to a 1,024th), compares the index with those that are open, at most 96, and reads the record,
 * which can have a name of 65,000 bytes. For each array that it writes, which takes two bytes of text at least, it can pass once over all records behind
 * the declaration of a struct, to find its definition. So
 *
 *     time of a call <= the check + out_len * (95 openings + half a pass over the type stream)
 *
 * and what a caller can choose is out_len: where streams come from elsewhere, lend a small buffer. A measure lends none, and has 16,777,215 in its place.
 */
#ifndef YOKBERD_H
#define YOKBERD_H

#include <stddef.h>
#include <stdint.h>

#ifdef __cplusplus
extern "C" {
#endif

#define YOKBERD_VERSION_MAJOR 0
#define YOKBERD_VERSION_MINOR 6
#define YOKBERD_VERSION_PATCH 1
#define YOKBERD_VERSION "0.6.1"

/* Flags, to be added up. Another bit is refused: YOKBERD_UNKNOWN_FLAGS. */
#define YOKBERD_NO_FUNCTION_RETURN 0x01u        /* no result before the function's name */
#define YOKBERD_NO_MEMBER_FUNCTION_STATIC 0x02u /* no `static ` before a static method */
#define YOKBERD_SPACE_AFTER_COMMA 0x04u         /* f(int, int) */
#define YOKBERD_SPACE_BEFORE_POINTER 0x08u      /* int * */
#define YOKBERD_NAME_ONLY 0x10u                 /* A, not struct A */
#define YOKBERD_NO_ARGUMENTS 0x20u              /* no argument list */

/* What pdb-addr2line takes where no flags are given. */
#define YOKBERD_DEFAULT_FLAGS \
    (YOKBERD_NO_FUNCTION_RETURN | YOKBERD_NO_MEMBER_FUNCTION_STATIC | YOKBERD_SPACE_AFTER_COMMA | YOKBERD_NAME_ONLY)

/* What a call returns: YOKBERD_ACCEPTED, or the number of a refusal. The comment says what *detail then is. */
enum yokberd_number {
    YOKBERD_ACCEPTED = 0,                                        /* 0 */
    YOKBERD_UNKNOWN_FLAGS = 1,                                   /* the flags, one of whose bits is no flag */
    YOKBERD_POINTER_SIZE = 2,                                    /* the pointer size, which is not 4, 8 or 16 */
    YOKBERD_HEADER = 3,                                          /* 0 types, 1 ids: its header is broken, or it has over 16,777,216 bytes; ids may have none */
    YOKBERD_TILING = 4,                                          /* 0 types, 1 ids: the records do not fill the bytes that the header names */
    YOKBERD_MALFORMED = 5,                                       /* the index of a malformed record that is needed */
    YOKBERD_CROSS_MODULE = 6,                                    /* an index with bit 31 set, which is one of another module */
    YOKBERD_UNLISTED_KIND = 7,                                   /* the kind of a record that is needed and that is of no kind that is read */
    YOKBERD_MISSING = 8,                                         /* an index that is not in its stream */
    YOKBERD_ARGUMENT_TYPE_NOT_ARGUMENT_LIST = 9,                 /* the index of what stands for a method's argument list */
    YOKBERD_FUNCTION_ID_IS_NOT_PROCEDURE_TYPE = 10,              /* the type index of a function id, which is no procedure */
    YOKBERD_MEMBER_FUNCTION_ID_IS_NOT_MEMBER_FUNCTION_TYPE = 11, /* the type index of a member function id, which is no member function */
    YOKBERD_CIRCULAR_TYPE_DEFINITION = 12,                       /* the index that is met inside itself */
    YOKBERD_TOO_MANY_OPEN = 13,                                  /* the 97th index that would be open at once */
    YOKBERD_CHAIN_TOO_LONG = 14,                                 /* the 33rd record of a chain of array levels, size steps or id scopes */
    YOKBERD_NO_ROOM = 15,                                        /* 0: the text is longer than out, or in a measure than YOKBERD_LONGEST */
    YOKBERD_UNKNOWN_COMMAND = 16,                                /* the command byte; only a line of a sheet has this number */
    YOKBERD_WRONG_PLACE = 17                                     /* which entry of the places, from 0, is the first lacking or not that of the stream */
};

/* A number of these in words. */
static inline const char *yokberd_refusal_text(uint32_t number) {
    switch (number) {
    case YOKBERD_ACCEPTED: return "accepted";
    case YOKBERD_UNKNOWN_FLAGS: return "the flags have a bit that is no flag";
    case YOKBERD_POINTER_SIZE: return "the pointer size is not 4, 8 or 16";
    case YOKBERD_HEADER: return "the header of a stream is broken, or the stream is too long; only an id stream may have no bytes";
    case YOKBERD_TILING: return "the records of a stream do not fill the bytes that its header names";
    case YOKBERD_MALFORMED: return "a record that is needed is malformed";
    case YOKBERD_CROSS_MODULE: return "an index is one of another module";
    case YOKBERD_UNLISTED_KIND: return "a record that is needed has a kind that is not read";
    case YOKBERD_MISSING: return "an index is not in its stream";
    case YOKBERD_ARGUMENT_TYPE_NOT_ARGUMENT_LIST: return "the argument list of a method is no argument list";
    case YOKBERD_FUNCTION_ID_IS_NOT_PROCEDURE_TYPE: return "the type of a function id is no procedure";
    case YOKBERD_MEMBER_FUNCTION_ID_IS_NOT_MEMBER_FUNCTION_TYPE: return "the type of a member function id is no member function";
    case YOKBERD_CIRCULAR_TYPE_DEFINITION: return "a type is circular";
    case YOKBERD_TOO_MANY_OPEN: return "a 97th index would be open at once";
    case YOKBERD_CHAIN_TOO_LONG: return "a chain of array levels, size steps or id scopes has more than 32 records";
    case YOKBERD_NO_ROOM: return "the text is longer than its buffer";
    case YOKBERD_UNKNOWN_COMMAND: return "a command of a sheet is unknown or cut";
    case YOKBERD_WRONG_PLACE: return "an entry of the places is lacking or not that of the type stream";
    default: return "no refusal has this number";
    }
}

/* What yokberd_read_stream returns: YOKBERD_CONTAINER_READ, or why the stream cannot be read. The comment says what *at then is: where a file offset is
 * said, it is that of the number that is wrong. */
enum yokberd_container {
    YOKBERD_CONTAINER_READ = 0,            /* 0 */
    YOKBERD_CONTAINER_SHORT = 1,           /* the file's length, which is below 56 */
    YOKBERD_CONTAINER_MAGIC = 2,           /* the first byte that differs from those that a .pdb file starts with */
    YOKBERD_CONTAINER_BLOCK_SIZE = 3,      /* 32: no power of two from 512 to 32,768 */
    YOKBERD_CONTAINER_FREE_BLOCK_MAP = 4,  /* 36: neither 1 nor 2 */
    YOKBERD_CONTAINER_CUT = 5,             /* 40: the file has fewer bytes than its blocks take */
    YOKBERD_CONTAINER_DIRECTORY_SIZE = 6,  /* 44: 0, no multiple of 4, or more than a block can list the blocks of */
    YOKBERD_CONTAINER_BLOCK_MAP = 7,       /* 52: the block that lists those of the directory is outside the file */
    YOKBERD_CONTAINER_DIRECTORY_BLOCK = 8, /* the offset of a block of the directory that is outside the file */
    YOKBERD_CONTAINER_DIRECTORY = 9,       /* the offset of the directory, which the streams do not fill exactly */
    YOKBERD_CONTAINER_STREAM_BLOCK = 10,   /* the offset of a block of a stream that is outside the file */
    YOKBERD_CONTAINER_NO_STREAM = 11,      /* the offset of the number of streams, or of the stream's size where that says that it is not there */
    YOKBERD_CONTAINER_NO_ROOM = 12         /* the stream's length, which is more than out_len */
};

/* A number of these in words. */
static inline const char *yokberd_container_text(uint32_t number) {
    switch (number) {
    case YOKBERD_CONTAINER_READ: return "read";
    case YOKBERD_CONTAINER_SHORT: return "the file has fewer bytes than the header of a .pdb file";
    case YOKBERD_CONTAINER_MAGIC: return "the file does not start as a .pdb file does";
    case YOKBERD_CONTAINER_BLOCK_SIZE: return "the block size is none that a .pdb file has";
    case YOKBERD_CONTAINER_FREE_BLOCK_MAP: return "the block of the free block map is neither 1 nor 2";
    case YOKBERD_CONTAINER_CUT: return "the file has fewer bytes than its blocks take";
    case YOKBERD_CONTAINER_DIRECTORY_SIZE: return "the length of the directory is none that a directory has";
    case YOKBERD_CONTAINER_BLOCK_MAP: return "the block that lists the directory's blocks is outside the file";
    case YOKBERD_CONTAINER_DIRECTORY_BLOCK: return "a block of the directory is outside the file";
    case YOKBERD_CONTAINER_DIRECTORY: return "the streams do not fill the directory";
    case YOKBERD_CONTAINER_STREAM_BLOCK: return "a block of a stream is outside the file";
    case YOKBERD_CONTAINER_NO_STREAM: return "there is no such stream";
    case YOKBERD_CONTAINER_NO_ROOM: return "the stream is longer than its buffer";
    default: return "no case has this number";
    }
}

/* The bytes of a stream of a .pdb file.
 *
 *   file            the whole file
 *   stream          the stream's number: YOKBERD_TYPES_STREAM, YOKBERD_IDS_STREAM or another
 *   out             the buffer for its bytes
 *
 * Read: returns YOKBERD_CONTAINER_READ. *len is the stream's length, its bytes are the first *len bytes of out, and the bytes behind them are as they were.
 * *at is 0.
 *
 * Not read: returns the number of a case above, the first in their order that holds. *at is its place, *len is 0, and every byte of out is 0. So a call with
 * an out_len of 0 tells the length to lend: YOKBERD_CONTAINER_NO_ROOM, in *at. A file can name one block many times, and so a length of up to 4 GiB, of
 * which the other calls take no more than 16,777,216 bytes: see to it where files come from elsewhere.
 *
 * The file of a program that was linked without an id stream has none, YOKBERD_CONTAINER_NO_STREAM, or one of no bytes. Either way there are no ids: go on with
 * an ids_len of 0.
 *
 * Takes a pass over the directory and the stream.
 */
#define YOKBERD_TYPES_STREAM 2
#define YOKBERD_IDS_STREAM 4
uint32_t yokberd_read_stream(const uint8_t *file, size_t file_len, uint32_t stream, uint8_t *out, size_t out_len, size_t *at, size_t *len);

/* The text of a function, an id or a type.
 *
 *   types, ids      the whole type stream and id stream of a .pdb (streams 2 and 4). An ids_len of 0 says that there are no ids, as in a program that was
 *                   linked without an id stream: each id is then written as missing, `<missing type 0x1001>`, where bit 31 is not set
 *   out             the buffer for the text
 *   flags           a sum of the flags above
 *   pointer_size    of the program's machine: 4, 8 or 16
 *   name            the bytes of the function's name, without a closing zero
 *   index           the index of the function's type, of the id, of the type
 *
 * Accepted: returns YOKBERD_ACCEPTED. *text_len is the length of the text, which is the first *text_len bytes of out; there is no closing zero, and the
 * bytes of out behind the text are as they were. *detail is 0. The text of an id or a type is well-formed UTF-8: in each name of a record the ill-formed
 * parts are replaced by the bytes EF BF BD (U+FFFD), as Unicode recommends; it may hold control characters, a line feed too. That of a function has `name`
 * in it byte for byte, and is UTF-8 where that is.
 *
 * Refused: returns the refusal's number, 1 to 15. *detail is its detail, *text_len is 0, and every byte of out is 0.
 */
uint32_t yokberd_format_function(const uint8_t *types, size_t types_len, uint8_t *out, size_t out_len, uint32_t flags, uint32_t pointer_size,
                                 const uint8_t *name, size_t name_len, uint32_t index, uint32_t *detail, size_t *text_len);

uint32_t yokberd_format_id(const uint8_t *types, size_t types_len, const uint8_t *ids, size_t ids_len, uint8_t *out, size_t out_len, uint32_t flags,
                           uint32_t pointer_size, uint32_t index, uint32_t *detail, size_t *text_len);

uint32_t yokberd_format_type(const uint8_t *types, size_t types_len, uint8_t *out, size_t out_len, uint32_t flags, uint32_t pointer_size,
                             uint32_t index, uint32_t *detail, size_t *text_len);

/* The size of a type in bytes; what cannot be read has the size 0.
 *
 * Accepted: returns YOKBERD_ACCEPTED, *size is the size, *detail is 0. Refused: returns YOKBERD_POINTER_SIZE, YOKBERD_HEADER, YOKBERD_TILING or
 * YOKBERD_CHAIN_TOO_LONG, *detail is its detail, *size is 0.
 */
uint32_t yokberd_get_type_size(const uint8_t *types, size_t types_len, uint32_t pointer_size, uint32_t index, uint32_t *detail, uint64_t *size);

/* Streams checked once, for many calls over the same bytes.
 *
 * yokberd_check_streams checks both streams in one pass over their records, and notes in checked what the four calls below it, the measures and the batches
 * over checked streams and yokberd_checked_print_sheet go by: the bounds of both streams, and the places of records from which a look-up starts. Where a
 * program has no ids, lend no bytes of them, here and to the calls.
 *
 *   stride          how many records apart the noted places are: 8 serves best. 0: as near as there are numbers for
 *   checked         the numbers to fill: YOKBERD_CHECKED at least, and one for each place
 *
 * Returns how many numbers serve for these streams and this stride. Lend that many: where it is more than checked_len, make a longer array and check again.
 * With fewer every answer is the same, and takes longer. The answer goes by the headers alone: one that says more records than its bytes can hold, of a stream
 * that is refused, makes it large. More than YOKBERD_CHECKED + 2 + (types_len + ids_len) / 4 / stride numbers are never of use.
 *
 * Over what yokberd_check_streams left in checked for the same bytes, these calls answer what the plain calls answer, and leave out as they do: a stream
 * that was refused is refused by each call. So keep checked beside the bytes, and check again where these change, or the library's version does: what its
 * numbers mean may change with that. (Places, below, mean the same in every version, and each call checks them.)
 *
 * They are safe with any other numbers too. Whatever checked holds, a call ends, reads and writes nothing but what it is lent, and is accepted or refused
 * by the numbers above; an array of zeros is refused as a broken type stream is, YOKBERD_HEADER, and zeros are what the check leaves in one of
 * fewer than YOKBERD_CHECKED numbers.
 */
#define YOKBERD_CHECKED 19
size_t yokberd_check_streams(const uint8_t *types, size_t types_len, const uint8_t *ids, size_t ids_len, uint32_t stride, uint32_t *checked,
                             size_t checked_len);

uint32_t yokberd_checked_format_function(const uint8_t *types, size_t types_len, const uint32_t *checked, size_t checked_len, uint8_t *out,
                                         size_t out_len, uint32_t flags, uint32_t pointer_size, const uint8_t *name, size_t name_len, uint32_t index,
                                         uint32_t *detail, size_t *text_len);

uint32_t yokberd_checked_format_id(const uint8_t *types, size_t types_len, const uint8_t *ids, size_t ids_len, const uint32_t *checked,
                                   size_t checked_len, uint8_t *out, size_t out_len, uint32_t flags, uint32_t pointer_size, uint32_t index,
                                   uint32_t *detail, size_t *text_len);

uint32_t yokberd_checked_format_type(const uint8_t *types, size_t types_len, const uint32_t *checked, size_t checked_len, uint8_t *out, size_t out_len,
                                     uint32_t flags, uint32_t pointer_size, uint32_t index, uint32_t *detail, size_t *text_len);

uint32_t yokberd_checked_get_type_size(const uint8_t *types, size_t types_len, const uint32_t *checked, size_t checked_len, uint32_t pointer_size,
                                       uint32_t index, uint32_t *detail, uint64_t *size);

/* Record places kept beside the type stream, from run to run.
 *
 * yokberd_fill_places fills the front of places: entry k is the number of bytes from the first byte of the stream, which is its header's, to the length
 * field of record 64 * k, counted from 0.
 *
 *   places          the entries to fill. A stream of n records needs (n + 63) / 64 of them: types_len / 256 + 1 always serve, and so do YOKBERD_PLACES
 *
 * Filled: returns YOKBERD_ACCEPTED. *filled is how many entries were filled, and those behind them are as they were. *detail is 0.
 *
 * Refused: returns YOKBERD_HEADER or YOKBERD_TILING, and *detail is 0; or YOKBERD_WRONG_PLACE where entries lack, and *detail is the number of the first of
 * these, which is places_len. *filled is 0, and every entry is 0.
 *
 * The four calls below it take any numbers for places, and check them. Where the plain call gives none of 1 to 4, and an entry that the stream needs is
 * lacking or is another, a call is refused by YOKBERD_WRONG_PLACE, whatever it asks for: *detail is the number of the first such entry, *text_len or *size
 * is 0, and every byte of out is 0. Entries behind the needed ones are never read. Otherwise the answer is that of the plain call, with the buffer, on all
 * inputs. So places may be kept in a file and lent again: those of other bytes are never believed.
 *
 * Each call passes over all record heads of its streams once, as a plain one does, and compares the entries on the way; then a look-up passes over at most
 * 63 types. Of ids there are no places: they are looked up as in a plain call. For many calls in one run check the streams once, above: those calls pass
 * over nothing first, but go by any numbers that they are lent.
 */
#define YOKBERD_PLACES 65536
uint32_t yokberd_fill_places(const uint8_t *types, size_t types_len, uint32_t *places, size_t places_len, uint32_t *detail, size_t *filled);

uint32_t yokberd_placed_format_function(const uint8_t *types, size_t types_len, const uint32_t *places, size_t places_len, uint8_t *out, size_t out_len,
                                        uint32_t flags, uint32_t pointer_size, const uint8_t *name, size_t name_len, uint32_t index, uint32_t *detail,
                                        size_t *text_len);

uint32_t yokberd_placed_format_id(const uint8_t *types, size_t types_len, const uint8_t *ids, size_t ids_len, const uint32_t *places, size_t places_len,
                                  uint8_t *out, size_t out_len, uint32_t flags, uint32_t pointer_size, uint32_t index, uint32_t *detail,
                                  size_t *text_len);

uint32_t yokberd_placed_format_type(const uint8_t *types, size_t types_len, const uint32_t *places, size_t places_len, uint8_t *out, size_t out_len,
                                    uint32_t flags, uint32_t pointer_size, uint32_t index, uint32_t *detail, size_t *text_len);

uint32_t yokberd_placed_get_type_size(const uint8_t *types, size_t types_len, const uint32_t *places, size_t places_len, uint32_t pointer_size,
                                      uint32_t index, uint32_t *detail, uint64_t *size);

/* How long a text is and how many indexes are opened for it, with no buffer lent: to lay out a page, or to lend just as many bytes as a text takes.
 *
 * Each call takes what the text call of the same name takes, but for out: plain, over streams checked once, over places.
 *
 * Accepted: returns YOKBERD_ACCEPTED. *length is the length of the text. To the text call an out of so many bytes is always enough, and one byte less never
 * is, where the text has bytes. *opened is how many indexes that call opens; one that is opened again counts again. The function type 0 is not opened, nor
 * is an index that is written by itself and that a mark replaces, `<missing type 0x2000>`. *detail is 0.
 *
 * Refused: returns the number and has the *detail that the text call has with an out of YOKBERD_LONGEST bytes; YOKBERD_NO_ROOM says that the text is longer
 * than these. *length and *opened are 0.
 *
 * A measure takes about as long as the text call with that out. There is no shorter one: where streams come from elsewhere, lend the text call a small
 * buffer in place of a measure, and see whether it is refused by YOKBERD_NO_ROOM.
 */
#define YOKBERD_LONGEST 16777215
uint32_t yokberd_measure_function(const uint8_t *types, size_t types_len, uint32_t flags, uint32_t pointer_size, const uint8_t *name, size_t name_len,
                                  uint32_t index, uint32_t *detail, size_t *length, uint64_t *opened);

uint32_t yokberd_measure_id(const uint8_t *types, size_t types_len, const uint8_t *ids, size_t ids_len, uint32_t flags, uint32_t pointer_size,
                            uint32_t index, uint32_t *detail, size_t *length, uint64_t *opened);

uint32_t yokberd_measure_type(const uint8_t *types, size_t types_len, uint32_t flags, uint32_t pointer_size, uint32_t index, uint32_t *detail,
                              size_t *length, uint64_t *opened);

uint32_t yokberd_checked_measure_function(const uint8_t *types, size_t types_len, const uint32_t *checked, size_t checked_len, uint32_t flags,
                                          uint32_t pointer_size, const uint8_t *name, size_t name_len, uint32_t index, uint32_t *detail, size_t *length,
                                          uint64_t *opened);

uint32_t yokberd_checked_measure_id(const uint8_t *types, size_t types_len, const uint8_t *ids, size_t ids_len, const uint32_t *checked,
                                    size_t checked_len, uint32_t flags, uint32_t pointer_size, uint32_t index, uint32_t *detail, size_t *length,
                                    uint64_t *opened);

uint32_t yokberd_checked_measure_type(const uint8_t *types, size_t types_len, const uint32_t *checked, size_t checked_len, uint32_t flags,
                                      uint32_t pointer_size, uint32_t index, uint32_t *detail, size_t *length, uint64_t *opened);

uint32_t yokberd_placed_measure_function(const uint8_t *types, size_t types_len, const uint32_t *places, size_t places_len, uint32_t flags,
                                         uint32_t pointer_size, const uint8_t *name, size_t name_len, uint32_t index, uint32_t *detail, size_t *length,
                                         uint64_t *opened);

uint32_t yokberd_placed_measure_id(const uint8_t *types, size_t types_len, const uint8_t *ids, size_t ids_len, const uint32_t *places, size_t places_len,
                                   uint32_t flags, uint32_t pointer_size, uint32_t index, uint32_t *detail, size_t *length, uint64_t *opened);

uint32_t yokberd_placed_measure_type(const uint8_t *types, size_t types_len, const uint32_t *places, size_t places_len, uint32_t flags,
                                     uint32_t pointer_size, uint32_t index, uint32_t *detail, size_t *length, uint64_t *opened);

/* Many ids, or many types, in one call, with each stream checked once; the last two go by the numbers of yokberd_check_streams and check none.
 *
 *   indexes         the ids or types to name
 *   answers         YOKBERD_ANSWER numbers for each index: the refusal or 0, its detail or 0, where the text starts in out, and its length, 0 where refused
 *
 * The texts lie one behind another from the start of out, and every byte behind them is 0. Returns how many indexes are done, from the first on; the numbers
 * of answers behind theirs are as they were. It ends early where answers is full, or where the room behind the others is too short for the next text: then
 * ask again with the rest. A text that does not fit into the whole of out is refused by YOKBERD_NO_ROOM, and its index is done: so each call with an index and
 * YOKBERD_ANSWER numbers does one at least. Each answer is the one that the single call with this out gives.
 */
#define YOKBERD_ANSWER 4
size_t yokberd_format_ids(const uint8_t *types, size_t types_len, const uint8_t *ids, size_t ids_len, uint8_t *out, size_t out_len, uint32_t flags,
                          uint32_t pointer_size, const uint32_t *indexes, size_t indexes_len, uint64_t *answers, size_t answers_len);

size_t yokberd_format_types(const uint8_t *types, size_t types_len, uint8_t *out, size_t out_len, uint32_t flags, uint32_t pointer_size,
                            const uint32_t *indexes, size_t indexes_len, uint64_t *answers, size_t answers_len);

size_t yokberd_checked_format_ids(const uint8_t *types, size_t types_len, const uint8_t *ids, size_t ids_len, const uint32_t *checked, size_t checked_len,
                                  uint8_t *out, size_t out_len, uint32_t flags, uint32_t pointer_size, const uint32_t *indexes, size_t indexes_len,
                                  uint64_t *answers, size_t answers_len);

size_t yokberd_checked_format_types(const uint8_t *types, size_t types_len, const uint32_t *checked, size_t checked_len, uint8_t *out, size_t out_len,
                                    uint32_t flags, uint32_t pointer_size, const uint32_t *indexes, size_t indexes_len, uint64_t *answers,
                                    size_t answers_len);

/* Many calls in one, with each stream checked once. A sheet is a list of commands, numbers little-endian:
 *
 *   0x01 u32            sets the flags, 0 at the start
 *   0x02 u8             sets the pointer size, 8 at the start
 *   0x10 u32            the text of a type
 *   0x11 u32            the size of a type
 *   0x12 u32            the text of an id
 *   0x13 u32 u8[16]     the text of a function: its type; its name, which ends at a zero or with the 16 bytes
 *
 * Each of the last four makes a line: its number from 1, the refusal or 0, its detail in hexadecimal, and then a space and the text or the decimal size, if
 * there is one; then a line feed. A text has at most 4,096 bytes here. An unknown or cut command makes a line of YOKBERD_UNKNOWN_COMMAND and ends the sheet.
 *
 * Writes as many whole lines behind the first skip as fit, to the start of out; the bytes behind them are as they were. *bytes and *lines say how much
 * that is. Returns 0 where no line is left and 1 where lines are left: then ask again, with *lines more to skip. A buffer of YOKBERD_LINE bytes takes any
 * one line, so with it each call goes on. Nothing is refused but by a line.
 */
#define YOKBERD_LINE 4150
uint32_t yokberd_print_sheet(const uint8_t *types, size_t types_len, const uint8_t *ids, size_t ids_len, const uint8_t *sheet, size_t sheet_len,
                             uint8_t *out, size_t out_len, size_t skip, size_t *bytes, size_t *lines);

/* The same over streams that were checked before, by the numbers that yokberd_check_streams left: for a sheet that is printed in parts, and for many sheets.
 * Any other numbers are as safe as with the calls above; each line then says what its call answers by them. */
uint32_t yokberd_checked_print_sheet(const uint8_t *types, size_t types_len, const uint8_t *ids, size_t ids_len, const uint32_t *checked,
                                     size_t checked_len, const uint8_t *sheet, size_t sheet_len, uint8_t *out, size_t out_len, size_t skip,
                                     size_t *bytes, size_t *lines);

#ifdef __cplusplus
}
#endif

#endif
