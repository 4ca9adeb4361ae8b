/*
 * Stivlaheim for C: the binary lexer, in libcapi.a (x86-64 Linux). The archive needs nothing else. C99 and C++ alike.
 *
 *     oracle/archive                                         proves the library and all below it, and makes crates/capi_c/out/libcapi.a
 *     cc -Iinclude program.c crates/capi_c/out/libcapi.a     compiles a program with it
 *
 * examples/tokens.c is such a program: it prints a save's tokens with their texts, writes its normal form and its shortest spelling, lists
 * its contents, and rescues what a clipped save still holds.
 *
 * A slice is two parameters: a pointer to its first element, and the number of its elements.
 *
 * What a caller keeps, of every slice that is handed over:
 *  - the length is true: so many elements stand there, in one piece, and stay until the call is back;
 *  - the pointer is aligned for its element; with length 0 it is not looked at, and NULL will do;
 *  - nothing writes a const slice while the call runs;
 *  - nothing else reads or writes a slice that is not const, and it overlaps no other slice of the call.
 * Beyond that nothing is asked: every number and every content is allowed. No function keeps anything between calls, so threads may call
 * at once.
 *
 * What a function answers. `answer` is lent to it and has at least STIVLAHEIM_WORDS words. If it has fewer, the function returns
 * STIVLAHEIM_SHORT_ANSWER and changes nothing. Otherwise it fills the first eight, changes no others, and returns
 *  - STIVLAHEIM_ANSWERED: word 0 is the cursor after the call, words 1 to 7 the value's words, 0 where it has fewer;
 *  - STIVLAHEIM_NONE: there is none; word 0 is the cursor, the others are 0;
 *  - a refusal: word 0 is the cursor that is left, word 1 what the refusal returns, the others are 0.
 * Where a function says so it returns STIVLAHEIM_BAD_ARGUMENT, and changes nothing.
 *
 * A value's words:
 *  - an unsigned number, an id, a float: one, the number (a float's is the one that its bytes spell, little-endian);
 *  - a signed number: one, in two's complement of 64 bits;
 *  - a bool: one, 0 or 1;
 *  - a part of the bytes, such as a string's text: two, where it begins and its length. It is never a copy: it is good as long as the bytes
 *    stay as they are (of a source see below);
 *  - a colour: five, red, green, blue, 1 if there is an alpha and 0 if not, and the alpha;
 *  - a token: its kind, and then the words of what it holds.
 */
#ifndef STIVLAHEIM_H
#define STIVLAHEIM_H

#include <stdbool.h>
#include <stddef.h>
#include <stdint.h>

#ifdef __cplusplus
extern "C" {
#endif

/* The words that a call fills. */
enum { STIVLAHEIM_WORDS = 8 };

/* What a call returns. */
enum {
    STIVLAHEIM_ANSWERED = 0,
    /* Refusals, with what word 1 holds. */
    STIVLAHEIM_EOF = 1,              /* the position; and word 2 how many bytes are missing, at least 1 */
    STIVLAHEIM_INVALID_RGB = 2,      /* the position */
    STIVLAHEIM_NO_ROOM = 4,          /* the bytes needed */
    STIVLAHEIM_BUFFER_TOO_SMALL = 5, /* the position */
    STIVLAHEIM_READ_FAILED = 6,      /* the position */
    STIVLAHEIM_BAD_PLACE = 7,        /* the number given that does not fit: a place, or an offset */
    STIVLAHEIM_TOO_LONG = 8,         /* the input's length; of stivlaheim_contents_write the number of entries */
    STIVLAHEIM_LIST_FULL = 10,       /* the number of entries needed */
    STIVLAHEIM_BAD_INDEX = 11,       /* nothing, and so 0 */
    STIVLAHEIM_LONG_STRING = 31,     /* the token's position; of a token that is written alone 0 */
    STIVLAHEIM_WIDE_LOOKUP = 32,     /* the same */
    STIVLAHEIM_RESERVED_ID = 33,     /* the same */
    STIVLAHEIM_NONE = 9,             /* no refusal: there is none */
    STIVLAHEIM_SHORT_ANSWER = 100,
    STIVLAHEIM_BAD_ARGUMENT = 101 /* what was handed over is not what the call takes; nothing is changed */
};

/* The kinds of tokens. */
enum {
    STIVLAHEIM_KIND_OPEN = 0,
    STIVLAHEIM_KIND_CLOSE = 1,
    STIVLAHEIM_KIND_EQUAL = 2,
    STIVLAHEIM_KIND_U32 = 3,
    STIVLAHEIM_KIND_U64 = 4,
    STIVLAHEIM_KIND_I32 = 5,
    STIVLAHEIM_KIND_BOOL = 6,
    STIVLAHEIM_KIND_QUOTED = 7,
    STIVLAHEIM_KIND_UNQUOTED = 8,
    STIVLAHEIM_KIND_F32 = 9,
    STIVLAHEIM_KIND_F64 = 10,
    STIVLAHEIM_KIND_RGB = 11,
    STIVLAHEIM_KIND_I64 = 12,
    STIVLAHEIM_KIND_LOOKUP = 13,
    STIVLAHEIM_KIND_ID = 14
};

/* ---- Ids */

/* The kind of the token that begins with an id. */
uint32_t stivlaheim_into_kind(uint16_t id);

/* Whether an id is none of the 42 reserved ones. */
bool stivlaheim_is_id(uint16_t id);

/* ---- Parts of the bytes */

/* Splits after `count` bytes: word 0 is the count, words 1 and 2 are the part that is the rest. NONE, with word 0 zero, if there are fewer. */
uint32_t stivlaheim_get_split(const uint8_t *bytes, size_t bytes_len, size_t count, uint64_t *answer, size_t answer_len);

/* The text of a string token, by its start and length: word 0 is the start, words 1 and 2 are the part. BAD_PLACE with the start, which is
 * word 0 too, if it does not lie within the bytes. */
uint32_t stivlaheim_text(const uint8_t *bytes, size_t bytes_len, size_t start, size_t len, uint64_t *answer, size_t answer_len);

/* ---- The lexer: each call begins at the cursor, which is `at` and `offset`. `at` is a place in the bytes, and word 0 is the place to go on
 * with. `offset` is where the first of the bytes stands in the file; it stays the same, and is 0 if the bytes are the whole file.
 *
 * A position is one in the file, offset and place together: that of EOF and INVALID_RGB, of stivlaheim_position and of stivlaheim_find_key.
 * Nothing else has the offset in it: not word 0, not the start of a part, not what is missing.
 *
 * An offset that is over 2^64 - 1 together with the number of bytes is refused first: BAD_PLACE with the offset. Then a cursor past the bytes:
 * BAD_PLACE with `at`. A refused read leaves the cursor where it began, and there is the refusal's position. A refused skip leaves it where the
 * read began that failed, and there is the position. find_key never moves it. */

/* The position of the cursor in the file; the cursor stays. */
uint32_t stivlaheim_position(const uint8_t *bytes, size_t bytes_len, size_t at, size_t offset, uint64_t *answer, size_t answer_len);

/* The next token. */
uint32_t stivlaheim_read_token(const uint8_t *bytes, size_t bytes_len, size_t at, size_t offset, uint64_t *answer, size_t answer_len);

/* The same, and NONE at the end. */
uint32_t stivlaheim_next_token(const uint8_t *bytes, size_t bytes_len, size_t at, size_t offset, uint64_t *answer, size_t answer_len);

/* The next token, with the cursor left where it is; NONE if a read would be refused. */
uint32_t stivlaheim_peek_token(const uint8_t *bytes, size_t bytes_len, size_t at, size_t offset, uint64_t *answer, size_t answer_len);

/* The next id: two bytes. */
uint32_t stivlaheim_read_id(const uint8_t *bytes, size_t bytes_len, size_t at, size_t offset, uint64_t *answer, size_t answer_len);

/* The same, and NONE at the end. */
uint32_t stivlaheim_next_id(const uint8_t *bytes, size_t bytes_len, size_t at, size_t offset, uint64_t *answer, size_t answer_len);

/* The next id, with the cursor left where it is; NONE if a read would be refused. */
uint32_t stivlaheim_peek_id(const uint8_t *bytes, size_t bytes_len, size_t at, size_t offset, uint64_t *answer, size_t answer_len);

/* A string, after its id: the part that is its text. */
uint32_t stivlaheim_read_string(const uint8_t *bytes, size_t bytes_len, size_t at, size_t offset, uint64_t *answer, size_t answer_len);

/* A bool, after its id: one byte, and nonzero is true. */
uint32_t stivlaheim_read_bool(const uint8_t *bytes, size_t bytes_len, size_t at, size_t offset, uint64_t *answer, size_t answer_len);

/* A lookup of one byte, after its id. */
uint32_t stivlaheim_read_lookup_u8(const uint8_t *bytes, size_t bytes_len, size_t at, size_t offset, uint64_t *answer, size_t answer_len);

/* A lookup of two bytes, after its id. */
uint32_t stivlaheim_read_lookup_u16(const uint8_t *bytes, size_t bytes_len, size_t at, size_t offset, uint64_t *answer, size_t answer_len);

/* A lookup of three bytes, after its id. */
uint32_t stivlaheim_read_lookup_u24(const uint8_t *bytes, size_t bytes_len, size_t at, size_t offset, uint64_t *answer, size_t answer_len);

/* A lookup of four bytes, after its id. */
uint32_t stivlaheim_read_lookup_u32(const uint8_t *bytes, size_t bytes_len, size_t at, size_t offset, uint64_t *answer, size_t answer_len);

/* An unsigned number of four bytes, after its id. */
uint32_t stivlaheim_read_u32(const uint8_t *bytes, size_t bytes_len, size_t at, size_t offset, uint64_t *answer, size_t answer_len);

/* An unsigned number of eight bytes, after its id. */
uint32_t stivlaheim_read_u64(const uint8_t *bytes, size_t bytes_len, size_t at, size_t offset, uint64_t *answer, size_t answer_len);

/* A signed number of four bytes, after its id. */
uint32_t stivlaheim_read_i32(const uint8_t *bytes, size_t bytes_len, size_t at, size_t offset, uint64_t *answer, size_t answer_len);

/* A signed number of eight bytes, after its id. */
uint32_t stivlaheim_read_i64(const uint8_t *bytes, size_t bytes_len, size_t at, size_t offset, uint64_t *answer, size_t answer_len);

/* A float of four bytes, after its id. */
uint32_t stivlaheim_read_f32(const uint8_t *bytes, size_t bytes_len, size_t at, size_t offset, uint64_t *answer, size_t answer_len);

/* A float of eight bytes, after its id. */
uint32_t stivlaheim_read_f64(const uint8_t *bytes, size_t bytes_len, size_t at, size_t offset, uint64_t *answer, size_t answer_len);

/* A colour, after its id. */
uint32_t stivlaheim_read_rgb(const uint8_t *bytes, size_t bytes_len, size_t at, size_t offset, uint64_t *answer, size_t answer_len);

/* The part that is the next `count` bytes. */
uint32_t stivlaheim_read_bytes(const uint8_t *bytes, size_t bytes_len, size_t at, size_t offset, size_t count, uint64_t *answer,
                               size_t answer_len);

/* Past the value whose id was read just before the cursor. It has no words. */
uint32_t stivlaheim_skip_value(const uint8_t *bytes, size_t bytes_len, size_t at, size_t offset, uint16_t id, uint64_t *answer,
                               size_t answer_len);

/* From inside a container to the place after its Close. It has no words. */
uint32_t stivlaheim_skip_container(const uint8_t *bytes, size_t bytes_len, size_t at, size_t offset, uint64_t *answer, size_t answer_len);

/* The position of the first key that is the plain id `id`, from the cursor on; the cursor stays. A key is a token other than Open, Close and
 * Equal, outside of every container that begins after the cursor, directly followed by Equal, or directly followed by Open and not itself
 * directly after an Equal; what stands before the cursor does not count, and a colour is one token. NONE if the id is no key and all was read;
 * EOF or INVALID_RGB, with the position of the refused token, if it is none before that. No byte after the token that follows the key is
 * looked at. */
uint32_t stivlaheim_find_key(const uint8_t *bytes, size_t bytes_len, size_t at, size_t offset, uint16_t id, uint64_t *answer,
                             size_t answer_len);

/* The part that is left; the cursor stays. */
uint32_t stivlaheim_remainder(const uint8_t *bytes, size_t bytes_len, size_t at, size_t offset, uint64_t *answer, size_t answer_len);

/* ---- Whole saves */

/* Reads all tokens: word 0 is the number of bytes, word 1 the number of tokens. The first token that is refused refuses the save, and its
 * position is word 0 too. */
uint32_t stivlaheim_count_tokens(const uint8_t *bytes, size_t bytes_len, uint64_t *answer, size_t answer_len);

/* ---- Writing: each call writes at the front of `out`, and word 0 is the number of bytes written; what stands after them is left as it
 * is. A refusal leaves all of `out` as it is: word 0 is 0, and word 1 what the refusal returns. So does an answer list that is too short. */

/* One token, by its kind and the words of what it holds, as stivlaheim_read_token answers them from word 2 on; a string's text stands in
 * `bytes`. `words` has at least five words, and those beyond the token's own are not looked at. BAD_ARGUMENT, after the test of the answer
 * list, if there are fewer than five, if there is no such kind, or if the words are no value of it: a number that is too large for its
 * type, a bool or a colour's fourth word over 1. An alpha is looked at only where the fourth word is 1. BAD_PLACE with the start if the
 * text does not lie within the bytes; LONG_STRING with 0 if the text is longer than 65535 bytes, WIDE_LOOKUP with 0 if a lookup needs more
 * than three bytes, RESERVED_ID with 0 if an id is reserved; NO_ROOM if `out` is too short. They are tested in this order. */
uint32_t stivlaheim_write(const uint8_t *bytes, size_t bytes_len, uint32_t kind, const uint64_t *words, size_t words_len, uint8_t *out,
                          size_t out_len, uint64_t *answer, size_t answer_len);

/* The same in the token's shortest spelling: the fewest bytes that read to it. Every lookup has one, so that WIDE_LOOKUP is never returned. */
uint32_t stivlaheim_write_shortest(const uint8_t *bytes, size_t bytes_len, uint32_t kind, const uint64_t *words, size_t words_len,
                                   uint8_t *out, size_t out_len, uint64_t *answer, size_t answer_len);

/* The longest save that the next four and stivlaheim_contents take, 2^31 bytes. No other call limits a save. */
#define STIVLAHEIM_LIMIT UINT64_C(2147483648)

/* A save in normal form. TOO_LONG over 2,147,483,648 bytes, before anything is read; then the first refusal in the order of the file: EOF,
 * INVALID_RGB, or WIDE_LOOKUP with the position of a lookup that needs more than three bytes; then NO_ROOM with the bytes needed. An
 * output of five times the save's length always suffices; one of no bytes tells what is needed. */
uint32_t stivlaheim_normalise(const uint8_t *bytes, size_t bytes_len, uint8_t *out, size_t out_len, uint64_t *answer, size_t answer_len);

/* A save with each token in its shortest spelling. TOO_LONG over 2,147,483,648 bytes, before anything is read; then the first refusal in the
 * order of the file, EOF or INVALID_RGB; then NO_ROOM with the bytes needed. An output of the save's length always suffices; one of no
 * bytes tells what is needed. What two saves are compared by is the normal form. */
uint32_t stivlaheim_shorten(const uint8_t *bytes, size_t bytes_len, uint8_t *out, size_t out_len, uint64_t *answer, size_t answer_len);

/* What can be rescued of a clipped save: the tokens' own bytes up to the first token that is refused, or all of them if none is, without
 * strays, and then a Close, the bytes 04 00, for each container that is still open. A stray is a Close outside of every container. Words 1 to 3
 * are the number of bytes cut off at the end, from the refused token on, that of the strays left out, and that of the Closes added. The result
 * reads to its end and is balanced; of a save that does and is, it is the save, and the three are 0. TOO_LONG over 2,147,483,648 bytes, before
 * anything is read; NO_ROOM with the bytes needed. A token that cannot be read refuses nothing: it ends what is kept. An output of twice the
 * save's length always suffices; one of no bytes tells what is needed. */
uint32_t stivlaheim_rescue(const uint8_t *bytes, size_t bytes_len, uint8_t *out, size_t out_len, uint64_t *answer, size_t answer_len);

/* The text that the program dump prints for a save. TOO_LONG over 2,147,483,648 bytes, before anything is read; NO_ROOM with the bytes
 * needed. A token that cannot be read refuses nothing: the text says so. */
uint32_t stivlaheim_list(const uint8_t *bytes, size_t bytes_len, uint8_t *out, size_t out_len, uint64_t *answer, size_t answer_len);

/* ---- The table of contents: lists of entries
 *
 * An entry runs from a key to the next key, or to the save's end. A key is as of stivlaheim_find_key from the save's start on, and need not be
 * an id. What stands before the first key is in no entry, and a key that comes again has an entry each time. A list is numbers, two an entry:
 * where it starts, and where it ends. `list_len` counts numbers, and so is twice the number of entries. A list is in order if each start is
 * below its end and each end is the next start; an empty one is.
 *
 * Two calls fill a list: the entries come to its front, word 0 is their number, and what stands after them is left as it is. An odd last number
 * is never touched. The two others take all that is handed over for entries, so that `list_len` is to be twice their number; a list of an odd
 * number of numbers is BAD_INDEX. A refusal leaves list and output as they are: word 0 is 0, and word 1 what the refusal returns. So does an
 * answer list that is too short. */

/* The entries of a save, in the order of the file. TOO_LONG over 2,147,483,648 bytes, before anything is read; then the first refusal in the
 * order of the file, EOF or INVALID_RGB; then LIST_FULL with the number of entries needed. A list of as many numbers as the save has bytes
 * always suffices; one of no numbers tells what is needed. A save of up to 32,768 entries is gone over once, one of more twice. The call needs
 * 256 KiB of the stack, and a little more: a thread that has less is ended by the system. */
uint32_t stivlaheim_contents(const uint8_t *bytes, size_t bytes_len, uint32_t *list, size_t list_len, uint64_t *answer, size_t answer_len);

/* Which entry of a list holds a position: word 0 is its number, from 0. An entry holds its start, and not its end. NONE, with word 0 zero, if
 * none does: before the first start and from the last end on. BAD_INDEX if the list is not in order, which is looked at first, and in all of
 * the list: the time is that of going over it, wherever the position is. Of the list of a save the answer is that of a fresh walk over the
 * save. */
uint32_t stivlaheim_contents_search(const uint32_t *list, size_t list_len, uint64_t position, uint64_t *answer, size_t answer_len);

/* The file that keeps a list, at the front of `out`: word 0 is the number of bytes written, and what stands after them is left as it is. It is a
 * version byte, 1; the number of bytes that follow; and start and end of each entry: every number big-endian, by four bytes. That is five bytes,
 * and eight an entry. BAD_INDEX if the list is not in order; then TOO_LONG with the number of entries from 536,870,912 on; then NO_ROOM with the
 * bytes needed. */
uint32_t stivlaheim_contents_write(const uint32_t *list, size_t list_len, uint8_t *out, size_t out_len, uint64_t *answer, size_t answer_len);

/* The list that a file keeps. BAD_INDEX if it has fewer than five bytes, another version, or another count than there are bytes after it, if
 * that is no multiple of 8, or if the entries are not in order; then LIST_FULL with the number of entries needed. A file does not say which save
 * it is of. */
uint32_t stivlaheim_contents_read(const uint8_t *file, size_t file_len, uint32_t *list, size_t list_len, uint64_t *answer, size_t answer_len);

/* ---- The window: a source of bytes, whose state is six words that a caller keeps
 *
 * The words of a state: where the unread bytes start and where they end, how many bytes of the supply are handed over, how many entries of
 * the schedule are used, the position (how many bytes were read through the source), and 1 for a stream or 0 for a slice. A stream's unread
 * bytes stand in `buffer`; a slice's stand in `supply`, and no element of its buffer or schedule is looked at: give lists that have none.
 *
 * One read of a stream uses one entry of the schedule: STIVLAHEIM_FAILS fails, another number hands over the least of it, the room in the
 * buffer and what is left of the supply. After the last entry a read hands over as much as is left and there is room for.
 *
 * Each call takes the state in `state`, and puts the state to go on with into its first six words, refused or not. Word 0 of the answer is
 * the position after the call; a part's words are where it begins, in the bytes that hold the unread ones, and its length.
 *
 * Between the calls on one source the buffer, the supply, the schedule and the state have to come back untouched. Then the bytes read, the
 * unread ones and what is left of the supply, joined, are the supply. What a caller changes is not noticed, unless a number does not fit: the
 * calls stay safe, and read what stands there then. A part of a stream stands in the buffer, and is good until the next call that is lent
 * the buffer to write: such a call may move the unread bytes, and read others over it. (advance, window_len and window do not.) A part of a
 * slice stands in the supply, and stays.
 *
 * BAD_ARGUMENT, after the test of the answer list, if `state` has fewer than six words or its sixth is over 1. Then BAD_PLACE with the first
 * number of the state that does not fit, and nothing is moved. BUFFER_TOO_SMALL, READ_FAILED and EOF have the
 * position, and EOF how many bytes the window has fewer than were asked for. */

/* The schedule's entry for a read that fails. */
#define STIVLAHEIM_FAILS UINT32_C(0xffffffff)

/* The words of a state. */
enum { STIVLAHEIM_STATE_WORDS = 6 };

/* The state of a source over a slice. Returns ANSWERED, or BAD_ARGUMENT if `state` has fewer than six words. */
uint32_t stivlaheim_source_from_slice(const uint8_t *slice, size_t slice_len, uint64_t *state, size_t state_len);

/* The state of a stream before its first call. Returns as stivlaheim_source_from_slice. */
uint32_t stivlaheim_source_from_reader(uint64_t *state, size_t state_len);

/* Has `count` bytes unread, reading as needed. It has no words. */
uint32_t stivlaheim_source_ensure_bytes(uint8_t *buffer, size_t buffer_len, const uint8_t *supply, size_t supply_len,
                                        const uint32_t *schedule, size_t schedule_len, uint64_t *state, size_t state_len,
                                        size_t count, uint64_t *answer, size_t answer_len);

/* Reads once, behind the unread bytes, which move to the front of the buffer: how many bytes came, 0 for a slice. BUFFER_TOO_SMALL if the
 * unread bytes fill the buffer. */
uint32_t stivlaheim_source_refill(uint8_t *buffer, size_t buffer_len, const uint8_t *supply, size_t supply_len,
                                  const uint32_t *schedule, size_t schedule_len, uint64_t *state, size_t state_len,
                                  uint64_t *answer, size_t answer_len);

/* The part that is the next `count` bytes, which stay unread. NONE in place of EOF if no byte is unread. */
uint32_t stivlaheim_source_peek(uint8_t *buffer, size_t buffer_len, const uint8_t *supply, size_t supply_len,
                                const uint32_t *schedule, size_t schedule_len, uint64_t *state, size_t state_len,
                                size_t count, uint64_t *answer, size_t answer_len);

/* The part that is the next `count` bytes, which are read. */
uint32_t stivlaheim_source_take(uint8_t *buffer, size_t buffer_len, const uint8_t *supply, size_t supply_len,
                                const uint32_t *schedule, size_t schedule_len, uint64_t *state, size_t state_len,
                                size_t count, uint64_t *answer, size_t answer_len);

/* The same, and NONE in place of EOF if no byte is unread. */
uint32_t stivlaheim_source_try_take(uint8_t *buffer, size_t buffer_len, const uint8_t *supply, size_t supply_len,
                                    const uint32_t *schedule, size_t schedule_len, uint64_t *state, size_t state_len,
                                    size_t count, uint64_t *answer, size_t answer_len);

/* As stivlaheim_source_take. */
uint32_t stivlaheim_source_take_bytes(uint8_t *buffer, size_t buffer_len, const uint8_t *supply, size_t supply_len,
                                      const uint32_t *schedule, size_t schedule_len, uint64_t *state, size_t state_len,
                                      size_t count, uint64_t *answer, size_t answer_len);

/* As stivlaheim_source_try_take. */
uint32_t stivlaheim_source_try_take_bytes(uint8_t *buffer, size_t buffer_len, const uint8_t *supply, size_t supply_len,
                                          const uint32_t *schedule, size_t schedule_len, uint64_t *state, size_t state_len,
                                          size_t count, uint64_t *answer, size_t answer_len);

/* Reads `count` of the unread bytes: a bool, which is 0 if there are fewer, and then none is read. */
uint32_t stivlaheim_source_advance(const uint8_t *buffer, size_t buffer_len, const uint8_t *supply, size_t supply_len,
                                   const uint32_t *schedule, size_t schedule_len, uint64_t *state, size_t state_len,
                                   size_t count, uint64_t *answer, size_t answer_len);

/* How many bytes are unread. */
uint32_t stivlaheim_source_window_len(const uint8_t *buffer, size_t buffer_len, const uint8_t *supply, size_t supply_len,
                                      const uint32_t *schedule, size_t schedule_len, uint64_t *state, size_t state_len,
                                      uint64_t *answer, size_t answer_len);

/* The part that is unread. */
uint32_t stivlaheim_source_window(const uint8_t *buffer, size_t buffer_len, const uint8_t *supply, size_t supply_len,
                                  const uint32_t *schedule, size_t schedule_len, uint64_t *state, size_t state_len,
                                  uint64_t *answer, size_t answer_len);

/* A string, after its id: the part that is its text. Where it is refused none of it is read. */
uint32_t stivlaheim_source_read_bstr(uint8_t *buffer, size_t buffer_len, const uint8_t *supply, size_t supply_len,
                                     const uint32_t *schedule, size_t schedule_len, uint64_t *state, size_t state_len,
                                     uint64_t *answer, size_t answer_len);

/* The next id: two bytes. */
uint32_t stivlaheim_source_read_lexeme_id(uint8_t *buffer, size_t buffer_len, const uint8_t *supply, size_t supply_len,
                                          const uint32_t *schedule, size_t schedule_len, uint64_t *state, size_t state_len,
                                          uint64_t *answer, size_t answer_len);

/* The next id, which stays unread. NONE in place of EOF if no byte is unread. */
uint32_t stivlaheim_source_peek_lexeme_id(uint8_t *buffer, size_t buffer_len, const uint8_t *supply, size_t supply_len,
                                          const uint32_t *schedule, size_t schedule_len, uint64_t *state, size_t state_len,
                                          uint64_t *answer, size_t answer_len);

/* A colour, after its id. Each id in it is judged as it comes: INVALID_RGB has the position after the one that is wrong. What was read
 * before a refusal stays read. */
uint32_t stivlaheim_source_read_rgb(uint8_t *buffer, size_t buffer_len, const uint8_t *supply, size_t supply_len,
                                    const uint32_t *schedule, size_t schedule_len, uint64_t *state, size_t state_len,
                                    uint64_t *answer, size_t answer_len);

/* ---- The fast step */

/* The next token of a window, with its number, length or id in eight held bytes: word 0 is its length, word 1 its kind. NONE, with word 0
 * zero and the held bytes as they were, under 16 bytes, for a colour, and for a string that is not wholly there. BAD_ARGUMENT if `held` has
 * not eight bytes. */
uint32_t stivlaheim_next_token_fast(const uint8_t *window, size_t window_len, uint8_t *held, size_t held_len, uint64_t *answer,
                                    size_t answer_len);

#ifdef __cplusplus
}
#endif

#endif
