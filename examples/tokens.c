/*
 * Prints the tokens of a save, and writes its normal form and its shortest spelling; or prints where a key stands; or lists the save's
 * entries, or the one that holds a position; or writes what can be rescued of a clipped save. C99 and C++ alike; examples/check compiles it as
 * both, and runs it.
 *
 *     tokens SAVE [NORMAL-FORM [SHORTEST]]
 *     tokens --key ID SAVE [HEADER]
 *     tokens --contents SAVE [POSITION]
 *     tokens --rescue SAVE OUTPUT
 *
 * A line for each token: its position, its kind, its value. A text stands in quotes, with the bytes that are not printable ASCII, and quotes
 * and backslashes, as \xNN. A float is its bytes in hex, the lowest first. Of a key: its position, or `none`. HEADER is how many bytes of the
 * file stand before the save's first, 0 if it is not given; the position is that in the file. A line START-END for each entry: where its key
 * stands, and the place after its last byte; of a position the number of its entry, from 0, and START-END, or `none`. Of a rescued save a line
 * `cut C strays S closes K`: the bytes cut off at its end, the Closes left out since they answer no Open, and those added for containers that
 * were open. The exit status is 0 if all is well; 1 if the save is refused, and standard error has the refusal; 2 if something cannot be read or
 * written.
 */
#include <errno.h>
#include <inttypes.h>
#include <stdio.h>
#include <stdlib.h>
#include <string.h>

#include "stivlaheim.h"

enum { WELL = 0, REFUSED = 1, FAILED = 2 };

struct save {
    const char *name;
    uint8_t *bytes;
    size_t len;
};

static const char *const KINDS[] = {"open",     "close", "equal", "u32", "u64", "i32",    "bool", "quoted",
                                    "unquoted", "f32",   "f64",   "rgb", "i64", "lookup", "id"};

static int failed(const char *what, const char *name) {
    fprintf(stderr, "tokens: %s %s: %s\n", what, name, strerror(errno));
    return FAILED;
}

/* The status, unless what was printed could not be written. */
static int printed(const char *what, int status) {
    return fflush(stdout) != 0 || ferror(stdout) ? failed("cannot write", what) : status;
}

static int usage(void) {
    fputs("tokens SAVE [NORMAL-FORM [SHORTEST]], tokens --key ID SAVE [HEADER], tokens --contents SAVE [POSITION], or tokens --rescue SAVE OUTPUT\n",
          stderr);
    return FAILED;
}

static int too_short(const char *name) {
    fprintf(stderr, "tokens: %s: shorter than its header\n", name);
    return FAILED;
}

/* Whether a word is a decimal number; and the number. */
static bool number(const char *word, uint64_t *value) {
    char *end = NULL;
    errno = 0;
    *value = strtoull(word, &end, 10);
    return *word >= '0' && *word <= '9' && *end == '\0' && errno == 0;
}

/* The refusals that these calls have, each with its number: a position, or the length of a save that is too long. */
static int refused(const struct save *save, uint32_t code, uint64_t number) {
    const char *why = "refused";
    switch (code) {
    case STIVLAHEIM_EOF: why = "Eof at"; break;
    case STIVLAHEIM_INVALID_RGB: why = "InvalidRgb at"; break;
    case STIVLAHEIM_WIDE_LOOKUP: why = "WideLookup at"; break;
    case STIVLAHEIM_BAD_PLACE: why = "BadPlace at"; break;
    case STIVLAHEIM_TOO_LONG: why = "TooLong, bytes:"; break;
    }
    fprintf(stderr, "tokens: %s: %s %" PRIu64 "\n", save->name, why, number);
    return REFUSED;
}

/* ---- reading the file */

/* Room for more bytes; false where there is none. */
static bool grow(struct save *save, size_t *room) {
    size_t more = *room < 65536 ? 65536 : *room * 2;
    uint8_t *bytes = more < *room ? NULL : (uint8_t *)realloc(save->bytes, more);
    if (bytes == NULL) {
        errno = ENOMEM;
        return false;
    }
    save->bytes = bytes;
    *room = more;
    return true;
}

static int read_save(struct save *save) {
    size_t room = 0;
    FILE *file = fopen(save->name, "rb");
    if (file == NULL) {
        return failed("cannot read", save->name);
    }
    while (!feof(file) && !ferror(file)) {
        if (save->len == room && !grow(save, &room)) {
            break;
        }
        save->len += fread(save->bytes + save->len, 1, room - save->len, file);
    }
    int status = feof(file) ? WELL : failed("cannot read", save->name);
    fclose(file);
    return status;
}

/* ---- printing tokens */

static void print_text(const uint8_t *text, size_t len) {
    putchar('"');
    for (size_t i = 0; i < len; i++) {
        if (text[i] < ' ' || text[i] > '~' || text[i] == '"' || text[i] == '\\') {
            printf("\\x%02x", (unsigned)text[i]);
        } else {
            putchar(text[i]);
        }
    }
    putchar('"');
}

/* The text of a string token: the call says which part of the save holds it, and nothing is copied. */
static int print_string(const struct save *save, size_t start, size_t len) {
    uint64_t part[STIVLAHEIM_WORDS];
    uint32_t code = stivlaheim_text(save->bytes, save->len, start, len, part, STIVLAHEIM_WORDS);
    if (code != STIVLAHEIM_ANSWERED) {
        return refused(save, code, part[1]);
    }
    print_text(save->bytes + part[1], (size_t)part[2]);
    return WELL;
}

/* Signed numbers come in two's complement. */
static void print_signed(uint64_t bits) {
    if (bits >> 63) {
        printf("-%" PRIu64, ~bits + 1);
    } else {
        printf("%" PRIu64, bits);
    }
}

static void print_bytes(uint64_t number, int count) {
    for (int i = 0; i < count; i++) {
        printf("%02x", (unsigned)(number >> 8 * i & 255));
    }
}

static void print_colour(const uint64_t *words) {
    printf("%" PRIu64 " %" PRIu64 " %" PRIu64, words[0], words[1], words[2]);
    if (words[3] == 1) {
        printf(" %" PRIu64, words[4]);
    }
}

/* A token at a position: its kind, and the words of what it holds. */
static int print_token(const struct save *save, uint64_t position, uint64_t kind, const uint64_t *words) {
    int status = WELL;
    printf("%" PRIu64 " %s", position, KINDS[kind]);
    if (kind > STIVLAHEIM_KIND_EQUAL) {
        putchar(' ');
    }
    switch (kind) {
    case STIVLAHEIM_KIND_OPEN:
    case STIVLAHEIM_KIND_CLOSE:
    case STIVLAHEIM_KIND_EQUAL: break;
    case STIVLAHEIM_KIND_I32:
    case STIVLAHEIM_KIND_I64: print_signed(words[0]); break;
    case STIVLAHEIM_KIND_BOOL: fputs(words[0] == 1 ? "true" : "false", stdout); break;
    case STIVLAHEIM_KIND_QUOTED:
    case STIVLAHEIM_KIND_UNQUOTED: status = print_string(save, (size_t)words[0], (size_t)words[1]); break;
    case STIVLAHEIM_KIND_F32: print_bytes(words[0], 4); break;
    case STIVLAHEIM_KIND_F64: print_bytes(words[0], 8); break;
    case STIVLAHEIM_KIND_RGB: print_colour(words); break;
    default: printf("%" PRIu64, words[0]); break;
    }
    putchar('\n');
    return status;
}

/* Word 0 of each answer is the place for the next call. The save is the whole file: its offset is 0. */
static int print_tokens(const struct save *save) {
    uint64_t answer[STIVLAHEIM_WORDS] = {0};
    uint64_t at = 0;
    int status = WELL;
    while (status == WELL) {
        uint32_t code = stivlaheim_next_token(save->bytes, save->len, (size_t)at, 0, answer, STIVLAHEIM_WORDS);
        if (code == STIVLAHEIM_NONE) {
            break;
        }
        status = code == STIVLAHEIM_ANSWERED ? print_token(save, at, answer[1], answer + 2) : refused(save, code, answer[1]);
        at = answer[0];
    }
    return printed("the tokens", status);
}

/* ---- the save, written anew */

static int write_file(const char *name, const uint8_t *bytes, size_t len) {
    FILE *file = fopen(name, "wb");
    if (file == NULL) {
        return failed("cannot write", name);
    }
    size_t written = len == 0 ? 0 : fwrite(bytes, 1, len, file);
    if (fclose(file) != 0 || written != len) {
        return failed("cannot write", name);
    }
    return WELL;
}

/* stivlaheim_normalise, stivlaheim_shorten or stivlaheim_rescue */
typedef uint32_t making(const uint8_t *bytes, size_t bytes_len, uint8_t *out, size_t out_len, uint64_t *answer, size_t answer_len);

/* The first call has no room, and says how many bytes are needed: in normal form never more than five times the save, in its shortest spelling
 * never more than the save, and rescued never more than twice the save. */
static int write_made(const struct save *save, const char *name, making *make, uint64_t *answer) {
    uint32_t code = make(save->bytes, save->len, NULL, 0, answer, STIVLAHEIM_WORDS);
    uint8_t *out = NULL;
    if (code == STIVLAHEIM_NO_ROOM) {
        size_t need = (size_t)answer[1];
        out = (uint8_t *)malloc(need);
        if (out == NULL) {
            return failed("cannot write", name);
        }
        code = make(save->bytes, save->len, out, need, answer, STIVLAHEIM_WORDS);
    }
    int status = code == STIVLAHEIM_ANSWERED ? write_file(name, out, (size_t)answer[0]) : refused(save, code, answer[1]);
    free(out);
    return status;
}

/* ---- a key */

/* The save begins after the header, and that is its offset: the positions that are told are those of the file. Nothing after the token that
 * follows the key is looked at: a save that is damaged there has the same answer. */
static int print_key(const struct save *file, size_t header, uint16_t id) {
    struct save save = {file->name, file->bytes + header, file->len - header};
    uint64_t answer[STIVLAHEIM_WORDS] = {0};
    uint32_t code = stivlaheim_find_key(save.bytes, save.len, 0, header, id, answer, STIVLAHEIM_WORDS);
    if (code == STIVLAHEIM_ANSWERED) {
        printf("%" PRIu64 "\n", answer[1]);
    } else if (code == STIVLAHEIM_NONE) {
        puts("none");
    } else {
        return refused(&save, code, answer[1]);
    }
    return printed("the position", WELL);
}

/* The id is decimal, or hex after 0x; the header's length is decimal, and 0 without a word for it. */
static int find_key(const char *word, const char *name, const char *length) {
    char *end = NULL;
    unsigned long id = strtoul(word, &end, 0);
    uint64_t header = 0;
    if (end == word || *end != '\0' || id > 0xffff || (length != NULL && !number(length, &header))) {
        return usage();
    }
    struct save file = {name, NULL, 0};
    int status = read_save(&file);
    if (status == WELL && header > file.len) {
        status = too_short(name);
    }
    if (status == WELL) {
        status = print_key(&file, (size_t)header, (uint16_t)id);
    }
    free(file.bytes);
    return status;
}

/* ---- the table of contents */

/* The entries of a save, two numbers each: where an entry starts, and where it ends. */
struct list {
    uint32_t *numbers;
    size_t len;
};

/* The first call has no list, and says how many entries there are. */
static int fill(struct list *list, const struct save *save) {
    uint64_t answer[STIVLAHEIM_WORDS];
    uint32_t code = stivlaheim_contents(save->bytes, save->len, NULL, 0, answer, STIVLAHEIM_WORDS);
    if (code == STIVLAHEIM_LIST_FULL) {
        size_t need = 2 * (size_t)answer[1];
        list->numbers = (uint32_t *)malloc(need * sizeof *list->numbers);
        if (list->numbers == NULL) {
            return failed("cannot list", save->name);
        }
        code = stivlaheim_contents(save->bytes, save->len, list->numbers, need, answer, STIVLAHEIM_WORDS);
    }
    if (code != STIVLAHEIM_ANSWERED) {
        return refused(save, code, answer[1]);
    }
    list->len = 2 * (size_t)answer[0];
    return WELL;
}

static void print_entry(const uint32_t *entry) {
    printf("%" PRIu32 "-%" PRIu32 "\n", entry[0], entry[1]);
}

/* The same list serves for any number of positions. */
static int print_holder(const struct save *save, const struct list *list, uint64_t position) {
    uint64_t answer[STIVLAHEIM_WORDS];
    uint32_t code = stivlaheim_contents_search(list->numbers, list->len, position, answer, STIVLAHEIM_WORDS);
    if (code == STIVLAHEIM_ANSWERED) {
        printf("%" PRIu64 " ", answer[0]);
        print_entry(list->numbers + 2 * answer[0]);
    } else if (code == STIVLAHEIM_NONE) {
        puts("none");
    } else {
        return refused(save, code, answer[1]);
    }
    return printed("the entry", WELL);
}

static int print_entries(const struct list *list) {
    for (size_t i = 0; i < list->len; i += 2) {
        print_entry(list->numbers + i);
    }
    return printed("the entries", WELL);
}

/* The position is decimal; without one all entries are listed. */
static int contents(const char *name, const char *word) {
    uint64_t position = 0;
    if (word != NULL && !number(word, &position)) {
        return usage();
    }
    struct save save = {name, NULL, 0};
    struct list list = {NULL, 0};
    int status = read_save(&save);
    if (status == WELL) {
        status = fill(&list, &save);
    }
    if (status == WELL) {
        status = word == NULL ? print_entries(&list) : print_holder(&save, &list, position);
    }
    free(list.numbers);
    free(save.bytes);
    return status;
}

/* ---- a clipped save */

/* A token that cannot be read refuses nothing here: what stands before it is kept, and the report says how much is not. */
static int rescue(const char *name, const char *output) {
    struct save save = {name, NULL, 0};
    uint64_t answer[STIVLAHEIM_WORDS] = {0};
    int status = read_save(&save);
    if (status == WELL) {
        status = write_made(&save, output, stivlaheim_rescue, answer);
    }
    if (status == WELL) {
        printf("cut %" PRIu64 " strays %" PRIu64 " closes %" PRIu64 "\n", answer[1], answer[2], answer[3]);
        status = printed("the report", WELL);
    }
    free(save.bytes);
    return status;
}

int main(int count, char **arguments) {
    if (count > 1 && strcmp(arguments[1], "--key") == 0) {
        return count == 4 || count == 5 ? find_key(arguments[2], arguments[3], count == 5 ? arguments[4] : NULL) : usage();
    }
    if (count > 1 && strcmp(arguments[1], "--contents") == 0) {
        return count == 3 || count == 4 ? contents(arguments[2], count == 4 ? arguments[3] : NULL) : usage();
    }
    if (count > 1 && strcmp(arguments[1], "--rescue") == 0) {
        return count == 4 ? rescue(arguments[2], arguments[3]) : usage();
    }
    if (count < 2 || count > 4) {
        return usage();
    }
    struct save save = {arguments[1], NULL, 0};
    uint64_t answer[STIVLAHEIM_WORDS] = {0};
    int status = read_save(&save);
    if (status == WELL) {
        status = print_tokens(&save);
    }
    if (status == WELL && count > 2) {
        status = write_made(&save, arguments[2], stivlaheim_normalise, answer);
    }
    if (status == WELL && count > 3) {
        status = write_made(&save, arguments[3], stivlaheim_shorten, answer);
    }
    free(save.bytes);
    return status;
}
