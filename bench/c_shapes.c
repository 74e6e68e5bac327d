/* Times litrs_parse and litrs_parse_into over texts of several shapes. With -DUPSTREAM the same
 * calls over the Rust crate litrs are timed beside them. bench/run_c builds and runs this.
 *
 * Each shape has 2,000 texts, the same in each run. A round goes over all of them, and the calls
 * take turns. The least of 1,000 rounds counts, in nanoseconds per text. With UPSTREAM the results
 * of both are compared first: the status, the literal, and the places of the error. */
#define _POSIX_C_SOURCE 199309L
#include "litrs.h"

#include <stdio.h>
#include <stdlib.h>
#include <string.h>
#include <time.h>

enum { TEXTS = 2000, ROUNDS = 1000, CALLS = 4, BYTES = 1 << 18 };

#ifdef UPSTREAM
litrs_answer upstream_parse(const uint8_t *text, size_t len);
void upstream_parse_into(const uint8_t *text, size_t len, litrs_answer *answer);
#endif

static uint8_t bytes[BYTES];
static size_t starts[TEXTS + 1];
static uint64_t state = 88172645463325252u;

static unsigned random_below(unsigned limit) {
    state ^= state << 13;
    state ^= state >> 7;
    state ^= state << 17;
    return (unsigned)(state >> 33) % limit;
}

/* Writes a text of a form: %d some digits, %x hexadecimal ones, %a some letters, %b a letter, %t a
 * type. */
static size_t put(uint8_t *at, const char *form) {
    static const char *const types[] = {"u8", "i16", "u32", "i64", "usize", "u128"};
    uint8_t *end = at;
    unsigned count;
    for (; *form; form++) {
        if (*form != '%') {
            *end++ = (uint8_t)*form;
            continue;
        }
        form++;
        count = *form == 'b' ? 1 : 1 + random_below(*form == 'a' ? 24 : 8);
        if (*form == 't') {
            const char *type = types[random_below(6)];
            memcpy(end, type, strlen(type));
            end += strlen(type);
            continue;
        }
        while (count--)
            *end++ = *form == 'd' ? (uint8_t)('0' + random_below(10))
                   : *form == 'x' ? (uint8_t)"0123456789abcdef"[random_below(16)]
                   : (uint8_t)('a' + random_below(26));
    }
    return (size_t)(end - at);
}

typedef struct shape {
    const char *name;
    const char *forms[2]; /* used in turn; the second may be left out */
} shape;

static const shape shapes[] = {
    {"bool", {"true", "false"}},
    {"integer", {"%d", NULL}},
    {"integer with a type", {"%d%t", NULL}},
    {"hexadecimal", {"0x%x", NULL}},
    {"float", {"%d.%d", NULL}},
    {"float with an exponent", {"%d.%de-%d", NULL}},
    {"char", {"'%b'", NULL}},
    {"char, escaped", {"'\\n'", "'\\u{1f98a}'"}},
    {"byte", {"b'%b'", NULL}},
    {"string", {"\"%a\"", NULL}},
    {"string, not ASCII", {"\"%aé%a\"", NULL}},
    {"string with escapes", {"\"%a\\n%a\\t\"", NULL}},
    {"raw string", {"r\"%a\"", "r#\"%a\"#"}},
    {"byte string", {"b\"%a\"", NULL}},
    {"C string", {"c\"%a\"", NULL}},
    {"refused: empty", {"", NULL}},
    {"refused: a name", {"%a", NULL}},
    {"refused: wrong digit", {"0b1%d2", NULL}},
    {"refused: no digits", {"0x_", "0b"}},
    {"refused: no suffix", {"%d-%d", NULL}},
    {"refused: no end of a string", {"\"%a", NULL}},
    {"refused: unknown escape", {"\"%a\\q%a\"", NULL}},
    {"refused: long char", {"'%b%b'", NULL}},
    {"refused: empty char", {"''", NULL}},
    {"refused: no raw end", {"r#\"%a\"", NULL}},
};

static double now(void) {
    struct timespec at;
    clock_gettime(CLOCK_MONOTONIC, &at);
    return (double)at.tv_sec * 1e9 + (double)at.tv_nsec;
}

/* Calls one of the four functions on all texts, and returns a sum of parts of the results. */
static uint64_t call_all(int call) {
    litrs_answer answer;
    uint64_t sum = 0;
    size_t i;
    memset(&answer, 0, sizeof answer);
    for (i = 0; i < TEXTS; i++) {
        const uint8_t *text = bytes + starts[i];
        size_t len = starts[i + 1] - starts[i];
        switch (call) {
        case 0: answer = litrs_parse(text, len); break;
        case 1: litrs_parse_into(text, len, &answer); break;
#ifdef UPSTREAM
        case 2: answer = upstream_parse(text, len); break;
        case 3: upstream_parse_into(text, len, &answer); break;
#endif
        }
        sum += answer.status == LITRS_LITERAL ? answer.literal.value_low + answer.literal.suffix.end
                                              : answer.refusal.span.start + answer.refusal.char_span.end;
    }
    return sum;
}

#ifdef UPSTREAM
static void compare(const char *name) {
    size_t i;
    for (i = 0; i < TEXTS; i++) {
        const uint8_t *text = bytes + starts[i];
        size_t len = starts[i + 1] - starts[i];
        litrs_answer ours, other;
        memset(&ours, 0, sizeof ours);
        memset(&other, 0, sizeof other);
        litrs_parse_into(text, len, &ours);
        upstream_parse_into(text, len, &other);
        /* These fields are private there. */
        ours.refusal.kind = other.refusal.kind;
        ours.refusal.is_final = other.refusal.is_final;
        ours.refusal.is_open = other.refusal.is_open;
        if (ours.status != other.status || ours.literal.kind != other.literal.kind
            || ours.literal.value_low != other.literal.value_low
            || memcmp(&ours.literal.main, &other.literal.main, 4 * sizeof(litrs_place)) != 0
            || memcmp(&ours.refusal.span, &other.refusal.span, 2 * sizeof(litrs_place)) != 0) {
            fprintf(stderr, "%s: answers differ on %.*s\n", name, (int)len, (const char *)text);
            exit(1);
        }
    }
}
#endif

static void time_shape(const shape *it, int calls) {
    double least[CALLS], begun, took;
    uint64_t sum = 0;
    int i, call, round;
    for (i = 0; i < TEXTS; i++)
        starts[i + 1] = starts[i] + put(bytes + starts[i], it->forms[i % 2 && it->forms[1] ? 1 : 0]);
    for (call = 0; call < calls; call++)
        least[call] = 1e30;
#ifdef UPSTREAM
    compare(it->name);
#endif
    for (round = 0; round < ROUNDS; round++)
        for (call = 0; call < calls; call++) {
            begun = now();
            sum += call_all(call);
            took = (now() - begun) / TEXTS;
            least[call] = took < least[call] ? took : least[call];
        }
    printf("    %-28s %6.1f %6.1f", it->name, least[0], least[1]);
    if (calls == CALLS)
        printf("   %6.1f %6.1f    %5.2f %5.2f", least[2], least[3], least[0] / least[2], least[1] / least[3]);
    printf("%s\n", sum == 1 ? " " : "");
}

int main(void) {
    size_t i;
#ifdef UPSTREAM
    int calls = CALLS;
    printf("    %-28s %13s   %13s    %11s\n", "", "ours", "upstream", "ratio");
    printf("    %-28s %6s %6s   %6s %6s    %5s %5s\n", "shape", "parse", "_into", "parse", "_into", "parse", "_into");
#else
    int calls = 2;
    printf("    %-28s %6s %6s\n", "shape", "parse", "_into");
#endif
    for (i = 0; i < sizeof shapes / sizeof *shapes; i++)
        time_shape(&shapes[i], calls);
    return 0;
}
