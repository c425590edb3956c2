/*
 * ClassAds: reading, checking, printing and matching. C99, usable from C++.
 *
 * Link with libclassad.a, the static library of the proved crates, and with the C
 * library's mathematics (-lm). The functions answer in numbers; docs/LAYOUT.md describes all
 * memory, and document 01 ('Required build and exact rules') gives the language.
 *
 * What holds for every function:
 *
 * - A slice is a pointer and a length, counted in elements. Any length and any content may
 *   be passed; what is too small is refused. The pointer is never null, also where the
 *   length is 0 (pass any valid pointer of that type), and it is aligned for its type.
 * - Memory that a call writes must not overlap any other memory of that call. What a call
 *   only reads may overlap: one ad may be passed as both ads of a match.
 * - `answer` points to the number of elements that its declaration names. All of them are
 *   written, whatever the call answers.
 * - Memory that is not named as written stays as it was, and so does all memory beyond the
 *   sizes below.
 * - Nothing is kept between calls, nothing is allocated. Calls with memory of their own may
 *   run at the same time. The deepest ads tried took less than 512 KB of stack (x86-64); no
 *   bound is proved.
 */
#ifndef CLASSAD_H
#define CLASSAD_H

#include <stddef.h>
#include <stdint.h>

#ifdef __cplusplus
extern "C" {
#endif

/* The bounds of an ad. Each is itself accepted. */
#define CLASSAD_TEXT_BYTES 16384 /* of a text, read or printed */
#define CLASSAD_DEFINITIONS 256
#define CLASSAD_NODES 1024
#define CLASSAD_NAME_BYTES 64
#define CLASSAD_STRING_BYTES 1024 /* after escapes */
#define CLASSAD_LEVELS 64

/* The least elements of each slice; what is smaller is refused with 1. */
#define CLASSAD_WORDS 4864       /* 64-bit words of a stored ad */
#define CLASSAD_BYTES 16384      /* bytes of a stored ad */
#define CLASSAD_TABLE_WORDS 4096 /* 64-bit words of a match's table: 2,048 slots of two */
#define CLASSAD_LIST_ENTRIES 2048
#define CLASSAD_FLAGS 2048

/* Where the definitions begin in an ad's words, and the words of a node and a definition. */
#define CLASSAD_DEFINITION_WORDS_START 4096
#define CLASSAD_WORDS_OF_NODE 4
#define CLASSAD_WORDS_OF_DEFINITION 3

/* A budget that covers every list, and the largest there is. */
#define CLASSAD_DEFAULT_BUDGET 65535

/* How many numbers each function answers. */
#define CLASSAD_READ_NUMBERS 3
#define CLASSAD_CHECK_NUMBERS 4
#define CLASSAD_PRINT_NUMBERS 2
#define CLASSAD_MATCH_NUMBERS 7
#define CLASSAD_DEPENDENCIES_NUMBERS 3
#define CLASSAD_VALUE_NUMBERS 4
#define CLASSAD_STRING_NUMBERS 2
#define CLASSAD_DEFINITION_NUMBERS 4
#define CLASSAD_EXPRESSION_NUMBERS 2
#define CLASSAD_POSITION_NUMBERS 2

/* The first number of an answer: 0, or the number of a refusal. */
enum {
    CLASSAD_ACCEPTED = 0,
    CLASSAD_MEMORY_TOO_SMALL = 1,
    CLASSAD_TEXT_TOO_LONG = 2,         /* over 16,384 bytes */
    CLASSAD_BAD_TOKEN = 3,             /* no token starts here, or a bad or unclosed string */
    CLASSAD_MISPLACED_TOKEN = 4,       /* does not fit the grammar, or the text ends early */
    CLASSAD_NUMBER_TOO_LARGE = 5,      /* Integer over 2,147,483,647 or Real over 15 digits */
    CLASSAD_NESTED_TOO_DEEP = 6,       /* deeper than level 64 */
    CLASSAD_NAME_OR_STRING_LONG = 7,   /* name over 64 bytes or string over 1,024 bytes */
    CLASSAD_NAME_DEFINED_TWICE = 8,
    CLASSAD_TOO_MANY = 9,              /* over 256 definitions or over 1,024 nodes */
    CLASSAD_NOT_WELL_FORMED = 10,      /* stored numbers that reading no text would leave */
    CLASSAD_PRINT_TOO_LONG = 11        /* longer than the output or than 16,384 bytes */
};

/* The kinds of nodes: the first word of a stored node. */
enum {
    CLASSAD_NODE_UNDEFINED = 1,
    CLASSAD_NODE_ERROR = 2,
    CLASSAD_NODE_BOOLEAN = 3,
    CLASSAD_NODE_INTEGER = 4,
    CLASSAD_NODE_REAL = 5,
    CLASSAD_NODE_STRING = 6,
    CLASSAD_NODE_REFERENCE = 7,       /* name */
    CLASSAD_NODE_OTHER_REFERENCE = 8, /* other.name */
    CLASSAD_NODE_NOT = 9,             /* !  */
    CLASSAD_NODE_PLUS = 10,           /* +, one operand */
    CLASSAD_NODE_MINUS = 11,          /* -, one operand */
    CLASSAD_NODE_CONDITIONAL = 12,    /* ? : */
    CLASSAD_NODE_OR = 13,
    CLASSAD_NODE_AND = 14,
    CLASSAD_NODE_EQUAL = 15,
    CLASSAD_NODE_NOT_EQUAL = 16,
    CLASSAD_NODE_IS = 17,
    CLASSAD_NODE_ISNT = 18,
    CLASSAD_NODE_LESS = 19,
    CLASSAD_NODE_LESS_OR_EQUAL = 20,
    CLASSAD_NODE_GREATER = 21,
    CLASSAD_NODE_GREATER_OR_EQUAL = 22,
    CLASSAD_NODE_ADD = 23,
    CLASSAD_NODE_SUBTRACT = 24,
    CLASSAD_NODE_MULTIPLY = 25,
    CLASSAD_NODE_DIVIDE = 26,
    CLASSAD_NODE_REMAINDER = 27
};

/* The kinds of values: the first word of a slot, and the first number of classad_value. */
enum {
    CLASSAD_VALUE_BLANK = 0, /* not worked out */
    CLASSAD_VALUE_UNDEFINED = 1,
    CLASSAD_VALUE_ERROR = 2,
    CLASSAD_VALUE_BOOLEAN = 3,
    CLASSAD_VALUE_INTEGER = 4,
    CLASSAD_VALUE_REAL = 5,
    CLASSAD_VALUE_STRING = 6
};

/* The two ads of a match. */
enum { CLASSAD_FIRST = 0, CLASSAD_SECOND = 1 };

/*
 * Reads a text into the memory of an ad.
 *
 * Accepted: 0, definitions, nodes. The first 4,864 words and 16,384 bytes hold the ad, with
 * zeros in all unused room.
 * Refused 1 (words or bytes too small) or 2: the number, 0, 0. Words and bytes stay as they
 * were.
 * Refused 3 to 9: the number, the place (the refused token's first byte, counted from 0; the
 * text's length where it ends early), 0. The first 4,864 words and 16,384 bytes are zero.
 */
void classad_read(const uint8_t *text, size_t text_length,
                  uint64_t *words, size_t words_length,
                  uint8_t *bytes, size_t bytes_length,
                  uint64_t answer[CLASSAD_READ_NUMBERS]);

/*
 * Checks whether any numbers are a stored ad: exactly those pass that reading some text,
 * were its length not bounded, would leave, zeros included.
 *
 * Well formed: 0, definitions, nodes, length of the printed text. That length may be over
 * 16,384; the ad is well formed then too, and printing it is refused with 11.
 * Refused 1 (words or bytes too small) or 10: the number, 0, 0, 0.
 * Writes the answer alone.
 */
void classad_check(const uint64_t *words, size_t words_length,
                   const uint8_t *bytes, size_t bytes_length,
                   uint64_t answer[CLASSAD_CHECK_NUMBERS]);

/*
 * Prints a stored ad into the front part of the output.
 *
 * Printed: 0, length of the text. The bytes of the output behind the text stay as they
 * were; no zero byte is put behind it.
 * Refused 1 (words or bytes too small), 10, or 11 (the text is longer than the output or
 * than 16,384 bytes), checked in that order: the number, 0. The output stays as it was.
 */
void classad_print(const uint64_t *words, size_t words_length,
                   const uint8_t *bytes, size_t bytes_length,
                   uint8_t *output, size_t output_length,
                   uint64_t answer[CLASSAD_PRINT_NUMBERS]);

/*
 * Matches two stored ads within a budget of steps.
 *
 * The budget covers the list: 0, 1 (finished), 1 if matched and else 0, first rank, second
 * rank, steps, transitions. Matched means that both Requirements are true and nothing else;
 * the ranks stand unmatched too.
 * The budget does not cover it: 0, 0, 0, 0, 0, steps done, transitions. This is no verdict.
 * In both cases the first 2,048 entries of the list hold the whole list, an entry being
 * 1 + 1,024 * side + node, then zeros. The table's first 4,096 words hold in slot
 * 1,024 * side + node, two words each, the values of the first entries, one for each step
 * made; every other slot is blank. What table and list held before does not matter.
 * Refused 1 (words, bytes, table or list too small) or 10 (the first ad or the second is not
 * well formed), checked in that order: the number and six zeros. Table and list stay as they
 * were.
 */
void classad_match(const uint64_t *first_words, size_t first_words_length,
                   const uint8_t *first_bytes, size_t first_bytes_length,
                   const uint64_t *second_words, size_t second_words_length,
                   const uint8_t *second_bytes, size_t second_bytes_length,
                   uint64_t *table, size_t table_length,
                   uint64_t *list, size_t list_length,
                   uint16_t budget,
                   uint64_t answer[CLASSAD_MATCH_NUMBERS]);

/*
 * Finds the circular references and the list of two stored ads.
 *
 * Found: 0, transitions, length of the list. The first 2,048 flags are 1 at
 * 1,024 * side + node for each circular reference of both ads, reached by the list or not,
 * and 0 elsewhere; the list is written as classad_match does.
 * Refused 1 (words, bytes, flags or list too small) or 10, checked in that order: the number,
 * 0, 0. Flags and list stay as they were.
 */
void classad_dependencies(const uint64_t *first_words, size_t first_words_length,
                          const uint8_t *first_bytes, size_t first_bytes_length,
                          const uint64_t *second_words, size_t second_words_length,
                          const uint8_t *second_bytes, size_t second_bytes_length,
                          size_t *flags, size_t flags_length,
                          uint64_t *list, size_t list_length,
                          uint64_t answer[CLASSAD_DEPENDENCIES_NUMBERS]);

/*
 * The value that a match left in the table for a node of the first ad (`second` 0) or of the
 * second (`second` not 0): its kind and what it carries.
 *
 * Blank 0, 0, 0, 0; Undefined 1, 0, 0, 0; Error 2, 0, 0, 0; Boolean 3, then 1 for true and 0
 * for false, 0, 0; Integer 4, its 32 bits in two's complement, 0, 0; Real 5, its 64 bits, 0,
 * 0; String 6, side, offset, length, of which classad_string tells where its bytes are.
 * A node over 1,023 is blank, and words beyond the table read as 0; any two words are some
 * slot (docs/LAYOUT.md). Nothing is refused; writes the answer alone.
 */
void classad_value(const uint64_t *table, size_t table_length,
                   uint64_t second, size_t node,
                   uint64_t answer[CLASSAD_VALUE_NUMBERS]);

/*
 * Where the bytes of a String value begin in its ad's bytes, and how many there are: those
 * of the first ad for side 0, else those of the second. Both numbers are cut to the memory,
 * so that this part always lies inside it. Nothing is refused; writes the answer alone.
 */
void classad_string(const uint8_t *first, size_t first_length,
                    const uint8_t *second, size_t second_length,
                    uint64_t side, uint16_t offset, uint16_t length,
                    uint64_t answer[CLASSAD_STRING_NUMBERS]);

/*
 * The definition that a node of a stored ad belongs to: 1, its number counted from 0, its
 * name's offset in the ad's bytes, its name's length; zeros where there is none or where the
 * words are too few. Nothing is refused; writes the answer alone.
 * The words are not checked. Of words that are no stored ad it is the first definition, in
 * front of any whose name has length 0, whose root is not below the node; its offset and
 * length may then lie outside the ad's bytes.
 */
void classad_definition(const uint64_t *words, size_t words_length,
                        size_t node,
                        uint64_t answer[CLASSAD_DEFINITION_NUMBERS]);

/*
 * Prints the expression of one node into the front part of the output: 0 and the text's
 * length, or 0, 0 and nothing written where the ad has no such node. The bytes behind the
 * text stay as they were.
 * Refused 1, 10 or 11, as classad_print: the number, 0. The output stays as it was.
 */
void classad_expression(const uint64_t *words, size_t words_length,
                        const uint8_t *bytes, size_t bytes_length,
                        size_t node,
                        uint8_t *output, size_t output_length,
                        uint64_t answer[CLASSAD_EXPRESSION_NUMBERS]);

/*
 * Line and column of a place in a text, both from 1. LF ends a line, the column counts
 * bytes, and a place beyond the text counts as its length. Nothing is refused; writes the
 * answer alone.
 */
void classad_position(const uint8_t *text, size_t text_length, size_t place,
                      uint64_t answer[CLASSAD_POSITION_NUMBERS]);

/*
 * The operators by themselves, over slots as in a table: two words each, a kind and what it
 * carries; any two words are some slot (docs/LAYOUT.md). An operator is named by the kind of
 * its node. Operands stand one after the other in `operands`, whose missing words read as 0;
 * the result goes into the first two words of `result`, as far as they are there, and no
 * other word is written. The result is blank where the number is no such operator's or an
 * operand is blank. Nothing is refused.
 */

/* Kinds 13 to 27, two operands. `first` and `second` are the bytes of both ads, which
 * Strings lie in. */
void classad_binary(const uint8_t *first, size_t first_length,
                    const uint8_t *second, size_t second_length,
                    uint64_t kind,
                    const uint64_t *operands, size_t operands_length,
                    uint64_t *result, size_t result_length);

/* Kinds 9 to 11, one operand. */
void classad_unary(uint64_t kind,
                   const uint64_t *operands, size_t operands_length,
                   uint64_t *result, size_t result_length);

/* `? :`, three operands. */
void classad_conditional(const uint64_t *operands, size_t operands_length,
                         uint64_t *result, size_t result_length);

/* The Real of a literal's digits, as one whole number, and how many of them stand after the
 * point; 0.0 where no literal has these numbers. */
void classad_real(uint64_t digits, uint64_t places,
                  uint64_t *result, size_t result_length);

#ifdef __cplusplus
}
#endif

#endif
