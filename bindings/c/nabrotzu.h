/* Procedures compared, formulas evaluated, and the console, from C.
 *
 * Link with crates/embed/out/libembed.a, which `rt lib` in crates/embed builds.
 * No function keeps a pointer or allocates memory. No pointer may be null, also where its length is 0, and no two buffers may
 * overlap. */
#ifndef NABROTZU_H
#define NABROTZU_H

#include <stddef.h>
#include <stdint.h>

/* What an input is: a term's text, or the bytes of a table file. */
enum { NABROTZU_TERM = 0, NABROTZU_TABLE = 1 };

/* The layers that refuse. */
enum {
    NABROTZU_RECORD = 1,
    NABROTZU_TABLE_LAYER = 2,
    NABROTZU_TERM_LAYER = 3,
    NABROTZU_MAP = 4,
    NABROTZU_SHELF = 5,
    NABROTZU_COMPARE = 6,
    NABROTZU_EVALUATION = 7,
    NABROTZU_CONSOLE = 8
};

/* The answer of a comparison. Where number is not 0 the call was refused, and the fields behind place are 0. */
typedef struct {
    uint8_t number;   /* 0, or the number of the refusal */
    uint8_t layer;    /* 0, or the layer that refused */
    uint8_t side;     /* of a refused input 1 for the left one, 2 for the right one; else 0 */
    uint8_t placed;   /* 1 where the refusal has a place */
    uint8_t same;     /* 1 for "same" */
    uint64_t place;   /* the place of the refusal; 0 where it has none */
    uint16_t classes; /* how many classes */
    uint16_t rounds;  /* how many rounds */
    uint16_t lines;   /* on "different": how many lines were written, the line that tells, its depth */
    uint16_t line;
    uint16_t depth;
} nabrotzu_comparison;

/* Reads both inputs, the left one first, and compares them. A formula line is three numbers: its letter as a character
 * ('T', 'E', 'N', 'A', 'D') and the two numbers behind it, 0 where it has none (`N i` is 'N', i, 0; `D a i` is 'D', a, i). So a
 * comparison of N states wants 3 * (4 * N - 3) numbers in lines and N in classes. What is not written is kept; on a refusal
 * everything is. A kind other than NABROTZU_TERM is taken for NABROTZU_TABLE. */
void nabrotzu_compare(uint8_t left_kind, const uint8_t *left, size_t left_length,
                      uint8_t right_kind, const uint8_t *right, size_t right_length,
                      uint16_t *lines, size_t lines_length,
                      uint16_t *classes, size_t classes_length,
                      nabrotzu_comparison *answer);

/* The answer of an evaluation. */
typedef struct {
    uint8_t number;
    uint8_t layer;
    uint8_t placed;
    uint8_t holds; /* 1 where the line holds at the state */
    uint64_t place;
} nabrotzu_evaluation;

/* Reads the input and evaluates the formula's lines over it: whether the line holds at the state. Three numbers make a line; one
 * or two that are left over are passed over. The working buffer wants lines * n places, n being the number of states. */
void nabrotzu_evaluate(uint8_t kind, const uint8_t *input, size_t input_length,
                       const uint16_t *lines, size_t lines_length,
                       uint64_t line, uint64_t state,
                       uint8_t *work, size_t work_length,
                       nabrotzu_evaluation *answer);

/* What a console read and wrote. */
typedef struct {
    uint64_t read;    /* bytes of the input whose lines were answered */
    uint64_t written; /* bytes of output */
} nabrotzu_session;

/* Answers the lines of the input on a new console, one after another, as long as 32 places are free for the next line's output;
 * where read is the input's length, all lines were answered. An input of over 32,768 bytes is answered by the one line
 * `refused 41` and read is its length. What lies behind the written bytes is kept. */
void nabrotzu_console(const uint8_t *input, size_t input_length, uint8_t *output, size_t output_length,
                      nabrotzu_session *answer);

#endif
