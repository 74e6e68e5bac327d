/* Prints the results of the C library for texts, which .ci/c_library.py compares with the wanted
 * ones.
 *
 * Standard input has a text in each line, in hex. The line that is printed for a text has these
 * fields:
 *
 * - the fields of litrs_answer in their order, and the result of litrs_goes_on;
 * - the status, length and bytes in hex of litrs_value and of litrs_message;
 * - the status of litrs_parse, litrs_value and litrs_message if every allocation fails;
 * - the numbers of allocations of litrs_parse, litrs_value, litrs_message and litrs_goes_on;
 * - the fields of litrs_prefix in their order, its status if every allocation fails, and the number
 *   of its allocations;
 * - of litrs_f64 and of litrs_f32, the status, the bits of the value, the status if every
 *   allocation fails, and the number of allocations;
 * - of each token, the kind, what it documents, 1 if it is trivia, and its end.
 *
 * The program ends with status 2 in these cases:
 *
 * - A call writes outside of its room or keeps memory.
 * - litrs_f64 or litrs_f32 writes without a value.
 * - A form that ends in _into differs from the form by value, or writes a field that the status
 *   does not define.
 * - NULL is not the empty text.
 * - The names of kinds are wrong.
 * - The written literal of a value is not parsed as the value.
 * - A cursor moves or a token is written although there is no token.
 * - A call on a long text has a wrong result.
 *
 * At each step a walk over a long text must read only the page of its place, the next page and the
 * last one. It may read the last page to know the last character. All other pages are protected, so
 * a step that reads them ends the program by a signal. So does a call in a thread with 64 KiB of
 * stack if it needs more.
 *
 * The program is linked with --wrap for malloc, realloc and free. */
#define _DEFAULT_SOURCE

#include "litrs.h"

#include <pthread.h>
#include <stdio.h>
#include <stdlib.h>
#include <string.h>
#include <sys/mman.h>
#include <unistd.h>

typedef litrs_written writes(const uint8_t *, size_t, uint8_t *, size_t);
typedef litrs_written writes_value(const uint8_t *, size_t, const uint8_t *, size_t, uint8_t *,
                                   size_t);
typedef size_t parses_into(const uint8_t *, size_t, litrs_answer *);

void *__real_malloc(size_t size);
void *__real_realloc(void *block, size_t size);
void __real_free(void *block);

static size_t asked, held;
static bool refuses;

void *__wrap_malloc(size_t size) {
    void *block;
    asked++;
    block = refuses ? NULL : __real_malloc(size);
    held += block != NULL;
    return block;
}

void *__wrap_realloc(void *block, size_t size) {
    void *moved;
    asked++;
    moved = refuses ? NULL : __real_realloc(block, size);
    held += block == NULL && moved != NULL;
    return moved;
}

void __wrap_free(void *block) {
    held -= block != NULL;
    __real_free(block);
}

static void hold(bool holds, const char *what) {
    if (!holds) {
        fprintf(stderr, "%s\n", what);
        exit(2);
    }
}

/* Prints the whole output of a call. Stops if the output differs for rooms of other lengths. */
static void print_written(writes *call, const uint8_t *text, size_t len, uint8_t *room) {
    litrs_written all = call(text, len, room, 0), same;
    size_t rooms[] = {all.len / 2, all.len, all.len + 3}, i, k;
    uint8_t *whole = room + all.len + 8;
    same = call(text, len, whole, all.len);
    hold(same.status == all.status && same.len == all.len, "another answer for another room");
    for (i = 0; i < 3; i++) {
        size_t fits = rooms[i] < all.len ? rooms[i] : all.len;
        memset(room, 0xAA, all.len + 8);
        same = call(text, len, room, rooms[i]);
        hold(same.status == all.status && same.len == all.len, "another answer for another room");
        hold(memcmp(room, whole, fits) == 0, "other bytes for another room");
        for (k = fits; k < all.len + 8; k++)
            hold(room[k] == 0xAA, "a write past what fits");
    }
    printf(" %u %zu ", (unsigned)all.status, all.len);
    for (k = 0; k < all.len; k++)
        printf("%02x", whole[k]);
    printf(".");
}

/* The number of the fields of an answer. */
enum { FIELDS = 24 };

static size_t put_place(uint64_t *fields, size_t at, litrs_place place) {
    fields[at] = place.start;
    fields[at + 1] = place.end;
    return at + 2;
}

static void flatten(const litrs_answer *answer, uint64_t *fields) {
    const litrs_literal *lit = &answer->literal;
    const litrs_refusal *no = &answer->refusal;
    size_t at = 0;
    fields[at++] = answer->status;
    fields[at++] = lit->kind;
    fields[at++] = lit->base;
    fields[at++] = lit->is_raw;
    fields[at++] = lit->has_fraction;
    fields[at++] = lit->has_value;
    fields[at++] = lit->value_low;
    fields[at++] = lit->value_high;
    at = put_place(fields, at, lit->main);
    at = put_place(fields, at, lit->fraction);
    at = put_place(fields, at, lit->exponent);
    at = put_place(fields, at, lit->suffix);
    fields[at++] = no->kind;
    fields[at++] = no->has_span;
    fields[at++] = no->is_final;
    fields[at++] = no->is_open;
    at = put_place(fields, at, no->span);
    at = put_place(fields, at, no->char_span);
    hold(at == FIELDS, "a field is missing");
}

static void print_answer(const litrs_answer *answer) {
    uint64_t fields[FIELDS];
    size_t i;
    flatten(answer, fields);
    for (i = 0; i < FIELDS; i++)
        printf("%s%llu", i ? " " : "", (unsigned long long)fields[i]);
}

static bool is_untouched(const void *part, size_t size) {
    const unsigned char *bytes = (const unsigned char *)part;
    while (size > 0 && bytes[size - 1] == 0xAA)
        size--;
    return size == 0;
}

static bool is_same(const litrs_answer *answer, const litrs_answer *other) {
    uint64_t fields[FIELDS], others[FIELDS];
    flatten(answer, fields);
    flatten(other, others);
    return memcmp(fields, others, sizeof fields) == 0;
}

static size_t parse_into(const uint8_t *text, size_t len, litrs_answer *answer) {
    litrs_parse_into(text, len, answer);
    return 0;
}

/* Stops if a form that ends in _into differs from the form by value over an answer of zeros. Stops
 * also if it changes a field of another answer that the status does not define. */
static void hold_into(parses_into *call, const uint8_t *text, size_t len, litrs_prefix wanted) {
    litrs_prefix into;
    memset(&into, 0, sizeof into);
    into.len = call(text, len, &into.answer);
    hold(is_same(&into.answer, &wanted.answer), "_into answers otherwise");
    hold(into.len == wanted.len, "_into has another length");
    memset(&into, 0xAA, sizeof into);
    into.len = call(text, len, &into.answer);
    hold(into.answer.status == wanted.answer.status && into.len == wanted.len, "another status");
    if (into.answer.status != LITRS_LITERAL)
        hold(is_untouched(&into.answer.literal, sizeof(litrs_literal)), "the literal was written");
    if (into.answer.status != LITRS_REFUSED)
        hold(is_untouched(&into.answer.refusal, sizeof(litrs_refusal)), "the refusal was written");
}

static void hold_parses_into(const uint8_t *text, size_t len) {
    litrs_prefix whole;
    whole.answer = litrs_parse(text, len);
    whole.len = 0;
    hold_into(parse_into, text, len, whole);
    hold_into(litrs_parse_prefix_into, text, len, litrs_parse_prefix(text, len));
}

/* Prints the result of litrs_f64, and stops if it writes without a value. */
static void print_f64(const uint8_t *text, size_t len) {
    uint64_t bits, untouched;
    size_t by_call;
    uint32_t status, refused;
    double value;
    memset(&value, 0xAA, sizeof value);
    memcpy(&untouched, &value, sizeof value);
    refuses = true;
    refused = litrs_f64(text, len, &value);
    refuses = false;
    memcpy(&bits, &value, sizeof value);
    hold(refused == LITRS_LITERAL || bits == untouched, "a double is written without a value");
    memset(&value, 0xAA, sizeof value);
    by_call = asked;
    status = litrs_f64(text, len, &value);
    by_call = asked - by_call;
    memcpy(&bits, &value, sizeof value);
    hold(status == LITRS_LITERAL || bits == untouched, "a double is written without a value");
    bits = status == LITRS_LITERAL ? bits : 0;
    printf(" %u %llu", (unsigned)status, (unsigned long long)bits);
    printf(" %u %zu", (unsigned)refused, by_call);
}

/* Like print_f64, for litrs_f32. */
static void print_f32(const uint8_t *text, size_t len) {
    uint32_t bits, untouched, status, refused;
    size_t by_call;
    float value;
    memset(&value, 0xAA, sizeof value);
    memcpy(&untouched, &value, sizeof value);
    refuses = true;
    refused = litrs_f32(text, len, &value);
    refuses = false;
    memcpy(&bits, &value, sizeof value);
    hold(refused == LITRS_LITERAL || bits == untouched, "a float is written without a value");
    memset(&value, 0xAA, sizeof value);
    by_call = asked;
    status = litrs_f32(text, len, &value);
    by_call = asked - by_call;
    memcpy(&bits, &value, sizeof value);
    hold(status == LITRS_LITERAL || bits == untouched, "a float is written without a value");
    bits = status == LITRS_LITERAL ? bits : 0;
    printf(" %u %llu", (unsigned)status, (unsigned long long)bits);
    printf(" %u %zu", (unsigned)refused, by_call);
}

/* The length from which on a text is walked only once, and not from each place. */
enum { SHORT = 1000 };

static size_t from;

/* Calls litrs_parse_prefix_from on a checked text, with the parameters of litrs_parse_prefix. */
static size_t parse_prefix_from(const uint8_t *text, size_t len, litrs_answer *answer) {
    litrs_cursor cursor, old;
    hold(litrs_check(text, len, &cursor), "the text is not UTF-8");
    cursor.at = from;
    old = cursor;
    len = litrs_parse_prefix_at(&cursor, answer);
    hold(memcmp(&old, &cursor, sizeof old) == 0, "the cursor is moved by a prefix");
    return len;
}

/* Tests each place of the text and one past it. There must be a token iff a character begins there.
 * The literal at the front must be that of the text from the place on. */
static void hold_places(const litrs_cursor *start) {
    for (from = 0; from <= start->len + 1; from++) {
        bool begins = from < start->len && (start->text[from] & 0xC0) != 0x80;
        litrs_cursor cursor = *start, old;
        litrs_token token;
        litrs_prefix front;
        cursor.at = from;
        old = cursor;
        memset(&token, 0xAA, sizeof token);
        hold(litrs_next_token(&cursor, &token) == begins, "another place has a token");
        if (begins) {
            front = litrs_parse_prefix(start->text + from, start->len - from);
            hold(token.place.start == from, "a token that starts elsewhere");
        } else {
            hold(memcmp(&old, &cursor, sizeof old) == 0, "the cursor is moved without a token");
            hold(is_untouched(&token, sizeof token), "a token is written without one");
            memset(&front, 0, sizeof front);
            front.answer.status = LITRS_NO_PREFIX;
        }
        hold_into(parse_prefix_from, start->text, start->len, front);
    }
}

/* Prints the tokens of a text, and stops if they are not its parts, one after the other. */
static void print_tokens(const uint8_t *text, size_t len) {
    size_t before = asked, last = 0;
    litrs_cursor cursor, start;
    litrs_token token;
    bool is_text;
    memset(&cursor, 0xAA, sizeof cursor);
    is_text = litrs_check(text, len, &cursor);
    start = cursor;
    hold(cursor.at == 0 && cursor.len == (is_text ? len : 0), "a cursor of another text");
    hold(cursor.text == text || cursor.len == 0, "a cursor of another text");
    printf(" ");
    while (litrs_next_token(&cursor, &token)) {
        size_t end = token.place.end;
        hold(token.place.start == last && end > last && end <= len, "tokens that do not follow");
        hold(cursor.at == end && cursor.text == text, "the cursor is not at the end of its token");
        printf("%u,%u,", (unsigned)token.kind, (unsigned)token.doc_style);
        printf("%d,%zu;", token.is_trivia, end);
        last = end;
    }
    hold(last == cursor.len && cursor.at == last, "the tokens are not the text");
    hold(!litrs_next_token(&cursor, &token) && cursor.at == last, "a token after the last");
    hold(asked == before, "a walk asks for memory");
    printf("%s.", is_text ? "" : "-");
    if (cursor.len < SHORT)
        hold_places(&start);
    cursor.at = SIZE_MAX;
    hold(!litrs_next_token(&cursor, &token) && cursor.at == SIZE_MAX, "a token past the end");
}

/* Returns memory whose pages can be protected, filled with lines of tokens. */
static uint8_t *pages_of_lines(size_t size) {
    static const char line[] = "let \xc3\xa9 = b\"\\n\" + 0x1F_u8; // \xe2\x82\xac\n";
    int reads = PROT_READ | PROT_WRITE, own = MAP_PRIVATE | MAP_ANONYMOUS;
    uint8_t *text = (uint8_t *)mmap(NULL, size, reads, own, -1, 0);
    size_t i;
    hold(text != MAP_FAILED, "no memory");
    memset(text, '\n', size);
    for (i = 0; i + sizeof line <= size; i += sizeof line - 1)
        memcpy(text + i, line, sizeof line - 1);
    return text;
}

/* Moves the cursor over the tokens that start before a place, and returns their number. */
static size_t walk_up_to(litrs_cursor *cursor, size_t place) {
    litrs_token token;
    litrs_answer answer;
    size_t count = 0;
    while (cursor->at < place) {
        litrs_parse_prefix_at(cursor, &answer);
        hold(litrs_next_token(cursor, &token), "the text ends too early");
        count++;
    }
    return count;
}

/* Walks a text while only the page of the cursor, the next one and the last one can be read. */
static void hold_window(void) {
    size_t page = (size_t)sysconf(_SC_PAGESIZE), count = 64, size = page * count, walked = 0, i;
    uint8_t *text = pages_of_lines(size);
    litrs_cursor cursor;
    hold(litrs_check(text, size, &cursor), "the text is not UTF-8");
    for (i = 0; i < count; i++) {
        mprotect(text, size, PROT_NONE);
        mprotect(text + page * i, page * (i + 1 < count ? 2 : 1), PROT_READ);
        mprotect(text + page * (count - 1), page, PROT_READ);
        walked += walk_up_to(&cursor, page * (i + 1));
    }
    hold(cursor.at == size && walked > size / 8, "too few tokens");
    munmap(text, size);
}

static void print_text(const uint8_t *text, size_t len, uint8_t *room) {
    size_t before = held, by_parse, by_value, by_message, by_goes_on, by_prefix;
    bool goes_on;
    litrs_answer answer;
    litrs_prefix prefix;
    asked = 0;
    answer = litrs_parse(text, len);
    by_parse = asked;
    litrs_value(text, len, room, 0);
    by_value = asked - by_parse;
    litrs_message(text, len, room, 0);
    by_message = asked - by_parse - by_value;
    goes_on = litrs_goes_on(text, len);
    by_goes_on = asked - by_parse - by_value - by_message;
    asked = 0;
    prefix = litrs_parse_prefix(text, len);
    by_prefix = asked;
    hold_parses_into(text, len);
    print_answer(&answer);
    printf(" %d", goes_on);
    print_written(litrs_value, text, len, room);
    print_written(litrs_message, text, len, room);
    refuses = true;
    printf(" %u", (unsigned)litrs_parse(text, len).status);
    printf(" %u", (unsigned)litrs_value(text, len, room, 0).status);
    printf(" %u", (unsigned)litrs_message(text, len, room, 0).status);
    refuses = false;
    printf(" %zu %zu %zu %zu ", by_parse, by_value, by_message, by_goes_on);
    print_answer(&prefix.answer);
    refuses = true;
    printf(" %zu %u", prefix.len, (unsigned)litrs_parse_prefix(text, len).answer.status);
    refuses = false;
    printf(" %zu", by_prefix);
    print_f64(text, len);
    print_f32(text, len);
    print_tokens(text, len);
    printf("\n");
    hold(held == before, "memory is kept");
}

/* Tests that NULL with length 0 is the empty text, and an empty room. */
static void hold_null(void) {
    static const uint8_t none[1];
    uint8_t room[80];
    double wide;
    float narrow;
    litrs_cursor cursor;
    litrs_token token;
    litrs_answer answer = litrs_parse(none, 0), same = litrs_parse(NULL, 0);
    litrs_prefix prefix = litrs_parse_prefix(NULL, 0);
    litrs_written value = litrs_value(NULL, 0, NULL, 0), message = litrs_message(NULL, 0, NULL, 0);
    hold(answer.status == LITRS_REFUSED && is_same(&same, &answer), "NULL is no empty text");
    hold_parses_into(NULL, 0);
    hold(prefix.answer.status == LITRS_NO_PREFIX && prefix.len == 0, "a prefix of NULL");
    hold(value.status == LITRS_REFUSED && value.len == 0, "a value of NULL");
    hold(message.status == LITRS_REFUSED && message.len > 0, "no message on NULL");
    hold(litrs_message(NULL, 0, room, sizeof room).len == message.len, "another message on NULL");
    hold(memcmp(room, "input is empty", message.len) == 0, "a wrong message on NULL");
    hold(litrs_goes_on(NULL, 0), "NULL does not go on");
    hold(litrs_f64(NULL, 0, &wide) == LITRS_REFUSED, "NULL is a number");
    hold(litrs_f32(NULL, 0, &narrow) == LITRS_REFUSED, "NULL is a number");
    memset(&cursor, 0xAA, sizeof cursor);
    hold(litrs_check(NULL, 0, &cursor) && cursor.len == 0 && cursor.at == 0, "NULL is no text");
    hold(!litrs_next_token(&cursor, &token), "a token of NULL");
    hold(litrs_parse_prefix_at(&cursor, &answer) == 0, "a prefix of NULL");
    hold(answer.status == LITRS_NO_PREFIX, "a prefix of NULL");
    cursor.at = 1;
    hold(!litrs_next_token(&cursor, &token) && cursor.at == 1, "a token past NULL");
    value = litrs_value((const uint8_t *)"\"a\"", 3, NULL, 0);
    hold(value.status == LITRS_LITERAL && value.len == 1, "no length for a room of NULL");
}

/* Tests that the written literal of a value is parsed as the same value with the same suffix. There
 * must be an allocation for the text, and a second one if the text has an escape. There must not be
 * an allocation for a wrong suffix. */
static void hold_bytes(writes_value *call, const uint8_t *value, size_t len, int kind) {
    static const uint8_t suffix[] = {'u', '8'};
    static uint8_t text[1 << 12], room[1 << 12];
    size_t before = asked, by_call;
    litrs_written written = call(value, len, suffix, 2, text, sizeof text), back;
    litrs_answer answer;
    by_call = asked - before;
    hold(written.status == LITRS_LITERAL && written.len <= sizeof text, "no literal is written");
    hold(by_call == (memchr(text, '\\', written.len) ? 2 : 1), "memory is asked for more often");
    answer = litrs_parse(text, written.len);
    hold(answer.status == LITRS_LITERAL && answer.literal.kind == (uint32_t)kind, "another kind");
    hold(answer.literal.suffix.start + 2 == written.len, "another suffix");
    back = litrs_value(text, written.len, room, sizeof room);
    hold(back.len == len && memcmp(room, value, len) == 0, "another value");
    hold(call(value, len, suffix, 2, NULL, 0).len == written.len, "another length");
    before = asked;
    hold(call(value, len, suffix + 1, 1, text, 1).status == LITRS_REFUSED, "a suffix of a digit");
    hold(asked == before, "memory is asked for a wrong suffix");
    refuses = true;
    written = call(value, len, NULL, 0, text, 1);
    hold(written.status == LITRS_OUT_OF_MEMORY, "no memory is asked for");
    refuses = false;
}

static void hold_integer(uint64_t low, uint64_t high, const char *wanted) {
    uint8_t text[48];
    size_t before = asked;
    litrs_written written = litrs_write_integer(low, high, NULL, 0, text, sizeof text);
    hold(asked == before + 1, "memory for an integer is asked for not once");
    hold(written.status == LITRS_LITERAL && written.len == strlen(wanted), "no integer is written");
    hold(memcmp(text, wanted, written.len) == 0, "another integer");
    hold(litrs_write_integer(low, high, (const uint8_t *)"e", 1, text, 1).status == LITRS_REFUSED,
         "an integer with an exponent");
    hold(asked == before + 1, "memory is asked for a wrong suffix");
}

/* Tests the literals of values: each byte, and texts of characters of each length. */
static void hold_literals(void) {
    static const char text[] = "a\"\\\n\r\t\0'\x7f\xc2\xad\xc3\xa9\xe2\x80\x8b\xf0\x9f\xa6\x8a";
    uint8_t bytes[256];
    size_t i, before = held;
    for (i = 0; i < 256; i++)
        bytes[i] = (uint8_t)i;
    hold_bytes(litrs_write_bytes, bytes, 256, LITRS_BYTE_STRING);
    hold_bytes(litrs_write_bytes, bytes, 0, LITRS_BYTE_STRING);
    hold_bytes(litrs_write_bytes, (const uint8_t *)"abc", 3, LITRS_BYTE_STRING);
    hold_bytes(litrs_write_string, (const uint8_t *)"abc", 3, LITRS_STRING);
    hold_bytes(litrs_write_string, bytes, 128, LITRS_STRING);
    hold_bytes(litrs_write_string, (const uint8_t *)text, sizeof text - 1, LITRS_STRING);
    hold(litrs_write_string(bytes + 128, 1, NULL, 0, NULL, 0).status == LITRS_NOT_UTF8, "no UTF-8");
    hold_integer(0, 0, "0");
    hold_integer(255, 0, "255");
    hold_integer(0, 1, "18446744073709551616");
    hold_integer(UINT64_MAX, UINT64_MAX, "340282366920938463463374607431768211455");
    hold(held == before, "memory is kept");
}

/* Stops if a call that writes a value has another status or text than wanted, or writes more. */
static void hold_written(litrs_written written, const uint8_t *room, int status,
                         const char *wanted) {
    size_t i;
    hold(written.status == (uint32_t)status && written.len == strlen(wanted), "another status");
    hold(memcmp(room, wanted, written.len) == 0, "another literal");
    for (i = written.len; i < 32; i++)
        hold(room[i] == 0xAA, "a write past the literal");
}

/* Tests values and suffixes that are empty, that have a NUL, or that are not UTF-8. */
static void hold_edges(void) {
    static const struct {
        const char *value, *suffix;
        size_t value_len, suffix_len;
        int of_string, of_bytes, of_integer;
        const char *string, *bytes;
    } edges[] = {
        {NULL, NULL, 0, 0, LITRS_LITERAL, LITRS_LITERAL, LITRS_LITERAL, "\"\"", "b\"\""},
        {"", "", 0, 0, LITRS_LITERAL, LITRS_LITERAL, LITRS_LITERAL, "\"\"", "b\"\""},
        {"\0", NULL, 1, 0, LITRS_LITERAL, LITRS_LITERAL, LITRS_LITERAL, "\"\\0\"", "b\"\\0\""},
        {"a", "\0", 1, 1, LITRS_REFUSED, LITRS_REFUSED, LITRS_REFUSED, "", ""},
        {"a", "u8\0", 1, 3, LITRS_REFUSED, LITRS_REFUSED, LITRS_REFUSED, "", ""},
        {"a", "\xff", 1, 1, LITRS_NOT_UTF8, LITRS_NOT_UTF8, LITRS_NOT_UTF8, "", ""},
        {"\xff", "1", 1, 1, LITRS_NOT_UTF8, LITRS_REFUSED, LITRS_REFUSED, "", ""},
        {"\xff", NULL, 1, 0, LITRS_NOT_UTF8, LITRS_LITERAL, LITRS_LITERAL, "", "b\"\\xff\""},
    };
    size_t i;
    for (i = 0; i < sizeof edges / sizeof *edges; i++) {
        const uint8_t *value = (const uint8_t *)edges[i].value;
        const uint8_t *suffix = (const uint8_t *)edges[i].suffix;
        size_t value_len = edges[i].value_len, suffix_len = edges[i].suffix_len;
        uint8_t room[32];
        litrs_written written;
        memset(room, 0xAA, sizeof room);
        written = litrs_write_string(value, value_len, suffix, suffix_len, room, sizeof room);
        hold_written(written, room, edges[i].of_string, edges[i].string);
        memset(room, 0xAA, sizeof room);
        written = litrs_write_bytes(value, value_len, suffix, suffix_len, room, sizeof room);
        hold_written(written, room, edges[i].of_bytes, edges[i].bytes);
        memset(room, 0xAA, sizeof room);
        written = litrs_write_integer(7, 0, suffix, suffix_len, room, sizeof room);
        hold_written(written, room, edges[i].of_integer, edges[i].of_integer ? "" : "7");
    }
}

/* The bytes of stack that are enough for every call, and the length of a long text. */
enum { STACK = 1 << 16, LONG = 300001 };

/* Returns whether all calls find a long literal with this front, and that its start is open. */
static bool is_long_read(const char *front, uint32_t kind) {
    static uint8_t text[LONG], room[1];
    litrs_answer answer;
    litrs_cursor cursor;
    litrs_token token;
    bool holds;
    size_t i;
    for (i = 0; i < LONG; i++)
        text[i] = (uint8_t)"a\\n"[i % 3];
    memcpy(text, front, strlen(front));
    text[LONG - 1] = '"';
    holds = litrs_parse(text, LONG).literal.kind == kind;
    litrs_parse_into(text, LONG, &answer);
    holds &= answer.status == LITRS_LITERAL && answer.literal.kind == kind;
    holds &= litrs_parse_prefix(text, LONG).len == LONG;
    holds &= litrs_parse_prefix_into(text, LONG, &answer) == LONG;
    holds &= litrs_value(text, LONG, room, sizeof room).status == LITRS_LITERAL;
    holds &= litrs_check(text, LONG, &cursor) && litrs_parse_prefix_at(&cursor, &answer) == LONG;
    holds &= litrs_next_token(&cursor, &token) && cursor.at == LONG;
    text[LONG - 1] = 'a';
    holds &= litrs_message(text, LONG, room, sizeof room).len > 1;
    return holds && litrs_goes_on(text, LONG);
}

/* Makes the calls on long texts. Returns NULL, or `fault` if a result is wrong. */
static void *call_on_long_texts(void *fault) {
    static uint8_t text[LONG], room[1];
    double wide;
    float narrow;
    bool holds = is_long_read("\"", LITRS_STRING) && is_long_read("b\"", LITRS_BYTE_STRING)
        && is_long_read("c\"", LITRS_C_STRING);
    memset(text, '\n', LONG);
    holds &= litrs_write_string(text, LONG, NULL, 0, room, sizeof room).status == LITRS_LITERAL;
    holds &= litrs_write_bytes(text, LONG, NULL, 0, room, sizeof room).status == LITRS_LITERAL;
    memset(text, '7', LONG);
    text[LONG / 2] = '.';
    holds &= litrs_f64(text, LONG, &wide) == LITRS_LITERAL;
    holds &= litrs_f32(text, LONG, &narrow) == LITRS_LITERAL;
    return holds ? NULL : fault;
}

/* Makes calls in a thread with a small stack. */
static void hold_stack(void) {
    pthread_attr_t attributes;
    pthread_t thread;
    void *found;
    char fault;
    hold(pthread_attr_init(&attributes) == 0, "no attributes of a thread");
    hold(pthread_attr_setstacksize(&attributes, STACK) == 0, "no thread has so small a stack");
    hold(pthread_create(&thread, &attributes, call_on_long_texts, &fault) == 0, "no thread");
    hold(pthread_join(thread, &found) == 0 && found == NULL, "a call on a long text fails");
    pthread_attr_destroy(&attributes);
}

/* Tests the names of kinds, and the version. */
static void hold_names(void) {
    hold(strcmp(litrs_version(), LITRS_VERSION) == 0, "another version");
    hold(strcmp(litrs_kind_name(LITRS_BOOL), "Bool") == 0, "another first kind");
    hold(strcmp(litrs_kind_name(LITRS_C_STRING), "CString") == 0, "another last kind");
    hold(strcmp(litrs_kind_name(LITRS_C_STRING + 1), "Unknown") == 0, "a kind too many");
    hold(strcmp(litrs_error_name(LITRS_ERROR_EMPTY), "Empty") == 0, "another first error");
    hold(strcmp(litrs_error_name(UINT32_MAX), "Unknown") == 0, "an error too many");
    hold(strcmp(litrs_token_kind_name(LITRS_TOKEN_WHITESPACE), "Whitespace") == 0, "a first kind");
    hold(strcmp(litrs_token_kind_name(LITRS_TOKEN_PUNCTUATION), "Punctuation") == 0, "a last kind");
    hold(strcmp(litrs_token_kind_name(LITRS_TOKEN_UNKNOWN + 1), "Unknown") == 0, "a kind too many");
}

static int digit(int letter) {
    return letter <= '9' ? letter - '0' : letter - 'a' + 10;
}

int main(void) {
    static uint8_t text[1 << 17], room[1 << 19];
    size_t len = 0;
    int high;
    hold_null();
    hold_names();
    hold_literals();
    hold_edges();
    hold_window();
    hold_stack();
    while ((high = getchar()) != EOF) {
        if (high == '\n') {
            print_text(text, len, room);
            len = 0;
        } else {
            hold(len < sizeof text, "a text is too long");
            text[len++] = (uint8_t)(16 * digit(high) + digit(getchar()));
        }
    }
    return 0;
}
