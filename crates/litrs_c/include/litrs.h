/* Rust literals: their parts, their values, and why a text is not one; and the tokens of a source.
 *
 * A text is a pointer and a length in bytes; it has no closing zero. If the length is 0 the pointer
 * may be NULL: that is the empty text, or a room of no bytes. Places count bytes from the start of
 * the text, or for litrs_parse_prefix_at from the cursor. Nothing is kept between calls, and nothing
 * has to be freed. README.md says more.
 */
#ifndef LITRS_H
#define LITRS_H

#include <stddef.h>
#include <stdint.h>

/* The version of this header; litrs_version() is that of the library. */
#define LITRS_VERSION "1.0.1-rattle.2"
#define LITRS_VERSION_MAJOR 1
#define LITRS_VERSION_MINOR 0
#define LITRS_VERSION_PATCH 1

/* A bool; in C89 a type of the same size. */
#if defined(__cplusplus) || (defined(__STDC_VERSION__) && __STDC_VERSION__ >= 199901L)
#include <stdbool.h>
#define LITRS_INLINE static inline
typedef bool litrs_bool;
#elif defined(__GNUC__)
#define LITRS_INLINE static __inline__
__extension__ typedef _Bool litrs_bool;
#else
#define LITRS_INLINE static
typedef unsigned char litrs_bool;
#endif

#ifdef __cplusplus
extern "C" {
#endif

/* The status of an answer. */
enum litrs_status {
    LITRS_LITERAL = 0,       /* the text, or its front, is a literal; or one was written */
    LITRS_REFUSED = 1,       /* the text is not a literal, its front is malformed, or no literal
                                has the suffix */
    LITRS_NOT_UTF8 = 2,      /* the bytes are not UTF-8 */
    LITRS_OUT_OF_MEMORY = 3, /* no memory for a value, a number's digits, or a literal */
    LITRS_NO_STRING = 4,     /* of litrs_value: the text is a literal, but not a string */
    LITRS_NO_PREFIX = 5,     /* of the calls on prefixes: no literal begins at the front */
    LITRS_NO_NUMBER = 6      /* of litrs_f64, litrs_f32: it is not an integer or a float */
};

/* The kinds of literals. */
enum litrs_kind {
    LITRS_BOOL = 1,        /* true */
    LITRS_INTEGER = 2,     /* 0xFF_u8 */
    LITRS_FLOAT = 3,       /* 3.14f32 */
    LITRS_CHAR = 4,        /* 'a' */
    LITRS_BYTE = 5,        /* b'a' */
    LITRS_STRING = 6,      /* "a", r"a" */
    LITRS_BYTE_STRING = 7, /* b"a", br"a" */
    LITRS_C_STRING = 8     /* c"a", cr"a" */
};

/* The kinds of errors. */
enum litrs_error {
    LITRS_ERROR_EMPTY = 1,
    LITRS_ERROR_UNEXPECTED_CHAR = 2,
    LITRS_ERROR_INVALID_LITERAL = 3,
    LITRS_ERROR_DOES_NOT_START_WITH_DIGIT = 4,
    LITRS_ERROR_INVALID_DIGIT = 5,
    LITRS_ERROR_NO_DIGITS = 6,
    LITRS_ERROR_NO_EXPONENT_DIGITS = 7,
    LITRS_ERROR_UNKNOWN_ESCAPE = 8,
    LITRS_ERROR_UNTERMINATED_ESCAPE = 9,
    LITRS_ERROR_INVALID_X_ESCAPE = 10,
    LITRS_ERROR_NON_ASCII_X_ESCAPE = 11,
    LITRS_ERROR_UNICODE_ESCAPE_IN_BYTE_LITERAL = 12,
    LITRS_ERROR_INVALID_START_OF_UNICODE_ESCAPE = 13,
    LITRS_ERROR_UNICODE_ESCAPE_WITHOUT_BRACE = 14,
    LITRS_ERROR_NON_HEX_DIGIT_IN_UNICODE_ESCAPE = 15,
    LITRS_ERROR_TOO_MANY_DIGIT_IN_UNICODE_ESCAPE = 16,
    LITRS_ERROR_INVALID_UNICODE_ESCAPE_CHAR = 17,
    LITRS_ERROR_UNTERMINATED_UNICODE_ESCAPE = 18,
    LITRS_ERROR_UNTERMINATED_CHAR_LITERAL = 19,
    LITRS_ERROR_OVERLONG_CHAR_LITERAL = 20,
    LITRS_ERROR_EMPTY_CHAR_LITERAL = 21,
    LITRS_ERROR_UNTERMINATED_BYTE_LITERAL = 22,
    LITRS_ERROR_OVERLONG_BYTE_LITERAL = 23,
    LITRS_ERROR_EMPTY_BYTE_LITERAL = 24,
    LITRS_ERROR_NON_ASCII_IN_BYTE_LITERAL = 25,
    LITRS_ERROR_UNESCAPED_SINGLE_QUOTE = 26,
    LITRS_ERROR_UNESCAPED_SPECIAL_WHITESPACE = 27,
    LITRS_ERROR_DOES_NOT_START_WITH_QUOTE = 28,
    LITRS_ERROR_UNTERMINATED_RAW_STRING = 29,
    LITRS_ERROR_UNTERMINATED_STRING = 30,
    LITRS_ERROR_INVALID_STRING_LITERAL_START = 31,
    LITRS_ERROR_INVALID_BYTE_LITERAL_START = 32,
    LITRS_ERROR_INVALID_BYTE_STRING_LITERAL_START = 33,
    LITRS_ERROR_INVALID_C_STRING_LITERAL_START = 34,
    LITRS_ERROR_DISALLOWED_NUL_ESCAPE = 35,
    LITRS_ERROR_NUL_BYTE = 36,
    LITRS_ERROR_CARRIAGE_RETURN = 37,
    LITRS_ERROR_TOO_MANY_HASHES = 38,
    LITRS_ERROR_INVALID_SUFFIX = 39,
    LITRS_ERROR_UNEXPECTED_INTEGER_LIT = 40,
    LITRS_ERROR_INTEGER_SUFFIX_STARTING_WITH_E = 41
};

/* The kinds of tokens of Rust source, in the edition 2021. */
enum litrs_token_kind {
    LITRS_TOKEN_WHITESPACE = 1,                 /* as much as there is */
    LITRS_TOKEN_LINE_COMMENT = 2,               /* from two slashes up to the end of the line */
    LITRS_TOKEN_BLOCK_COMMENT = 3,              /* block comments nest */
    LITRS_TOKEN_UNTERMINATED_BLOCK_COMMENT = 4, /* up to the end of the text */
    LITRS_TOKEN_IDENT = 5,                      /* a, fn, _ */
    LITRS_TOKEN_RAW_IDENT = 6,                  /* r#fn */
    LITRS_TOKEN_UNKNOWN_PREFIX = 7,             /* f directly before a quote or a hash */
    LITRS_TOKEN_LIFETIME = 8,                   /* 'a */
    LITRS_TOKEN_RAW_LIFETIME = 9,               /* 'r#fn */
    LITRS_TOKEN_UNKNOWN_PREFIX_LIFETIME = 10,   /* 'f directly before a hash */
    LITRS_TOKEN_LITERAL = 11,                   /* 0xFF_u8, "a", true: see litrs_parse */
    LITRS_TOKEN_MALFORMED_LITERAL = 12,         /* 0b12, "a: litrs_parse returns why */
    LITRS_TOKEN_PUNCTUATION = 13,               /* one character: >> is two tokens */
    LITRS_TOKEN_UNKNOWN = 14                    /* one character that begins no token */
};

/* What a comment documents. */
enum litrs_doc_style {
    LITRS_DOC_NONE = 0,  /* nothing */
    LITRS_DOC_INNER = 1, /* the item that contains it, as by two slashes and ! */
    LITRS_DOC_OUTER = 2  /* the item after it, as by three slashes */
};

/* The bytes from start up to end. */
typedef struct litrs_place {
    size_t start;
    size_t end;
} litrs_place;

/* A literal. A field that its kind does not have, except suffix, is 0, false, or the place 0..0. */
typedef struct litrs_literal {
    uint32_t kind;           /* enum litrs_kind */
    uint32_t base;           /* of an integer: 2, 8, 10 or 16 */
    litrs_bool is_raw;       /* of the three kinds of strings */
    litrs_bool has_fraction; /* of a float: true if it has a period */
    litrs_bool has_value;    /* of a bool, a char, a byte, and an integer below 2^128 */
    uint64_t value_low;      /* the value modulo 2^64, or 0 without has_value */
    uint64_t value_high;     /* the value divided by 2^64, rounded down, or 0 without has_value */
    litrs_place main;        /* digits and _ of an integer, of a float before period and exponent */
    litrs_place fraction;    /* of a float: digits and _ after the period; 0..0 without one */
    litrs_place exponent;    /* of a float: exponent, with letter and sign; empty without one */
    litrs_place suffix;      /* the suffix, which ends the text; empty if there is none */
} litrs_literal;

/* The error of a text that is not a literal. */
typedef struct litrs_refusal {
    uint32_t kind;         /* enum litrs_error */
    litrs_bool has_span;   /* true if it points at a part of the text; else both spans are 0..0 */
    litrs_bool is_final;   /* true only if no text that begins with this one is a literal */
    litrs_bool is_open;    /* true only if a string lacks just its closing quote and hashes */
    litrs_place span;      /* the part of the text; it may end inside a character */
    litrs_place char_span; /* the part of the text, up to the end of its last character */
} litrs_refusal;

/* The answer of litrs_parse: the status is one of the first four. */
typedef struct litrs_answer {
    uint32_t status;       /* enum litrs_status */
    litrs_literal literal; /* if the status is LITRS_LITERAL; else all is 0, by litrs_parse */
    litrs_refusal refusal; /* if the status is LITRS_REFUSED; else all is 0, by litrs_parse */
} litrs_answer;

/* The answer of litrs_parse_prefix: the status is one of the first four or LITRS_NO_PREFIX. */
typedef struct litrs_prefix {
    litrs_answer answer; /* about the literal at the front, or the malformed one */
    size_t len;          /* its length; 0 if none begins there, or if the bytes are not UTF-8 */
} litrs_prefix;

/* The answer of a call that writes to the caller's room. */
typedef struct litrs_written {
    uint32_t status; /* enum litrs_status */
    size_t len;      /* the number of bytes to write, even if they do not fit */
} litrs_written;

/* A text in UTF-8 and a place in it, which litrs_check sets. Until the last call with it, the text
 * must stay as it is. The caller may copy it, and set `at` to any number. */
typedef struct litrs_cursor {
    const uint8_t *text;
    size_t len;
    size_t at; /* in bytes, from the start of the text */
} litrs_cursor;

/* A token of a text. */
typedef struct litrs_token {
    uint32_t kind;        /* enum litrs_token_kind */
    uint32_t doc_style;   /* enum litrs_doc_style; LITRS_DOC_NONE if it documents nothing */
    litrs_bool is_trivia; /* true for white space and for comments of all three kinds */
    litrs_place place;    /* in the text of the cursor */
} litrs_token;

/* A text with a closing zero, which lasts as long as the program. */
typedef struct litrs_static_text {
    const char *text;
    size_t size; /* in bytes, with the closing zero */
} litrs_static_text;

/* Parses the text as a literal. */
litrs_answer litrs_parse(const uint8_t *text, size_t len);

/* Writes to answer what litrs_parse returns: the status, and the literal or the error if the status
 * names it. The rest stays unchanged, and need not be set. */
void litrs_parse_into(const uint8_t *text, size_t len, litrs_answer *answer);

/* Parses the literal at the front of the text, and returns its length too. */
litrs_prefix litrs_parse_prefix(const uint8_t *text, size_t len);

/* Writes to answer what litrs_parse_prefix returns, as by litrs_parse_into. Returns the length in
 * bytes of the literal, or of the malformed one; 0 if none begins, or if the text is not UTF-8. */
size_t litrs_parse_prefix_into(const uint8_t *text, size_t len, litrs_answer *answer);

/* Writes the value of a string, a byte string or a C string, as many bytes as fit, if the status is
 * LITRS_LITERAL. */
litrs_written litrs_value(const uint8_t *text, size_t len, uint8_t *room, size_t room_len);

/* Writes the double, or the float, nearest to an integer or a float to value, and returns the
 * status, enum litrs_status. It is the nearest one whatever the suffix, and infinite if the number
 * is too large. value need not be set, and is written only if the status is LITRS_LITERAL. */
uint32_t litrs_f64(const uint8_t *text, size_t len, double *value);
uint32_t litrs_f32(const uint8_t *text, size_t len, float *value);

/* Writes the message of the error, as much as fits, if the status is LITRS_REFUSED. It is ASCII,
 * without a closing zero. The call allocates like litrs_parse. */
litrs_written litrs_message(const uint8_t *text, size_t len, uint8_t *room, size_t room_len);

/* Returns true if the text, or the text with some text appended, is a literal. */
litrs_bool litrs_goes_on(const uint8_t *text, size_t len);

/* Returns true if the text is UTF-8, and sets the cursor to its start. Otherwise sets it to the
 * empty text. The cursor need not be set before. */
litrs_bool litrs_check(const uint8_t *text, size_t len, litrs_cursor *cursor);

/* Writes the token at the place of the cursor to token, moves the cursor to its end, and returns
 * true. Returns false, and writes nothing, at the end of the text, and if the place is past it or
 * inside a character. It needs no memory. */
litrs_bool litrs_next_token(litrs_cursor *cursor, litrs_token *token);

/* Like litrs_parse_prefix_into of the text from the place of the cursor on, but does not check that
 * it is UTF-8. No literal begins at a place that is past the text or inside a character. */
size_t litrs_parse_prefix_at(const litrs_cursor *cursor, litrs_answer *answer);

/* Writes the literal of a value, as much as fits, if the status is LITRS_LITERAL: the string of a
 * text, for example "a\nb"; the byte string of bytes; the integer value_low plus 2^64 times
 * value_high, in base ten. The suffix may be empty. The status is LITRS_REFUSED if no such literal
 * has the suffix, and LITRS_NOT_UTF8 if the text or the suffix is not UTF-8. */
litrs_written litrs_write_string(const uint8_t *value, size_t value_len, const uint8_t *suffix,
                                 size_t suffix_len, uint8_t *room, size_t room_len);
litrs_written litrs_write_bytes(const uint8_t *value, size_t value_len, const uint8_t *suffix,
                                size_t suffix_len, uint8_t *room, size_t room_len);
litrs_written litrs_write_integer(uint64_t value_low, uint64_t value_high, const uint8_t *suffix,
                                  size_t suffix_len, uint8_t *room, size_t room_len);

/* Write the version of the library, and the names of the kinds of literals, errors and tokens. The
 * static text need not be set before. The calls below return the text alone. */
void litrs_get_version(litrs_static_text *version);
void litrs_get_kind_name(uint32_t kind, litrs_static_text *name);
void litrs_get_error_name(uint32_t error, litrs_static_text *name);
void litrs_get_token_kind_name(uint32_t kind, litrs_static_text *name);

/* Returns the version of the library, as LITRS_VERSION. */
LITRS_INLINE const char *litrs_version(void) {
    litrs_static_text version = {"", 1};
    litrs_get_version(&version);
    return version.text;
}

/* Returns the name of a kind of literals: "Bool" for LITRS_BOOL, "CString" for LITRS_C_STRING. It is
 * "Unknown" for a number that enum litrs_kind does not have. */
LITRS_INLINE const char *litrs_kind_name(uint32_t kind) {
    litrs_static_text name = {"", 1};
    litrs_get_kind_name(kind, &name);
    return name.text;
}

/* Returns the name of a kind of errors: "InvalidDigit" for LITRS_ERROR_INVALID_DIGIT. It is
 * "Unknown" for a number that enum litrs_error does not have. */
LITRS_INLINE const char *litrs_error_name(uint32_t error) {
    litrs_static_text name = {"", 1};
    litrs_get_error_name(error, &name);
    return name.text;
}

/* Returns the name of a kind of tokens: "RawIdent" for LITRS_TOKEN_RAW_IDENT. It is "Unknown" also
 * for a number that enum litrs_token_kind does not have. */
LITRS_INLINE const char *litrs_token_kind_name(uint32_t kind) {
    litrs_static_text name = {"", 1};
    litrs_get_token_kind_name(kind, &name);
    return name.text;
}

#ifdef __cplusplus
}
#endif

#endif
