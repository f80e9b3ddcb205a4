/* Dookerand: one proved instruction decoder.
 *
 * Every function takes any bytes and always returns the number of an answer (`enum dookerand_answer`); values[0] to
 * values[3] are the answer's values, in the order in which the comments name them, unused ones 0. All four are set at
 * each call. No other lent byte is touched unless the comment says so. docs/ANSWERS.md says what each answer means and
 * in which order they are tested, docs/FORMAT.md what the bytes of a description and of a decision tree are.
 *
 * A slice goes as a pointer and a length. With length 0 the pointer may be any pointer but NULL.
 * `values` points to four numbers that overlap no slice.
 */
#ifndef DOOKERAND_H
#define DOOKERAND_H

#include <stddef.h>
#include <stdint.h>

#ifdef __cplusplus
extern "C" {
#endif

/* What a function returns. */
enum dookerand_answer {
    DOOKERAND_DONE = 0,
    DOOKERAND_MALFORMED = 1,         /* the description is not well formed */
    DOOKERAND_SHORT = 2,             /* the code ends too early */
    DOOKERAND_NO_MATCH = 3,          /* no constructor of a table matches */
    DOOKERAND_AMBIGUOUS = 4,         /* no single matching constructor lies inside all others */
    DOOKERAND_HOLE = 5,              /* a field's value has no name */
    DOOKERAND_TOO_FAR = 6,           /* a position is above 16 */
    DOOKERAND_TOO_MANY_ROWS = 7,     /* a 33rd row is needed */
    DOOKERAND_ROOT_LENGTH_ZERO = 8,  /* the instruction takes no bytes */
    DOOKERAND_NO_ROOM = 9,           /* what is lent is too short */
    DOOKERAND_TEXT_TOO_LONG = 10,    /* the text is longer than 256 bytes */
    DOOKERAND_BAD_TREE = 11,         /* the tree is not well formed */
    DOOKERAND_NO_TABLE = 12,         /* no constructor has this table, or the alignment is not 1, 2, 4 or 8 */
    DOOKERAND_OUTSIDE = 13,          /* a computed value is outside signed 64 bits */
    DOOKERAND_NO_MULTIPLE = 14,      /* a sweep's place is no multiple of the alignment; in its rows alone */
    DOOKERAND_CLASHING = 15,         /* two constructors of the table clash */
    DOOKERAND_TREE_TOO_LARGE = 16    /* the tree has more than 4,095 nodes, or more bytes than are lent */
};

/* The first number of a row of dookerand_decode. */
enum dookerand_row {
    DOOKERAND_ROW_CONSTRUCTOR = 0,
    DOOKERAND_ROW_FIELD = 1,
    DOOKERAND_ROW_NAME = 2,
    DOOKERAND_ROW_COMPUTED = 3
};

/* How a sweep ends; a listing ends with one of the first two. */
enum dookerand_end {
    DOOKERAND_END_USED = 0,
    DOOKERAND_END_FULL = 1,
    DOOKERAND_END_SHORT = 2
};

/* How many values there are, and numbers in a row. */
#define DOOKERAND_VALUES 4
#define DOOKERAND_ROW_NUMBERS 4

/* What always suffices: numbers for the rows of dookerand_decode, bytes for the text of dookerand_text, for a line of
 * dookerand_list (16 + 2 + 256 + 1; an address of more than eight digits is rare, but no address wraps) and for a tree
 * of dookerand_build (2 + 4 * 4095). */
#define DOOKERAND_DECODE_ROOM 128
#define DOOKERAND_TEXT_ROOM 256
#define DOOKERAND_LINE_ROOM 275
#define DOOKERAND_TREE_ROOM 16382

/* Stands for no record (the whole section), no constructor (a gap of a sweep, a leaf of a tree) and no single node. */
#define DOOKERAND_NONE 65535

/* Judges a description. 0: well formed. 1: section, record of its first fault (record 65,535 is the section itself). */
uint32_t dookerand_check(const uint8_t *description, size_t description_len, uint64_t values[4]);

/* Asks one table for the constructor that it takes for the code's bytes and a context.
 * 0: constructor, weight. 1: section, record. 12: the table number. 2: 0. 3 and 4: 0, table number. */
uint32_t dookerand_ask(const uint8_t *description, size_t description_len, uint32_t table, uint32_t context,
                       const uint8_t *code, size_t code_len, uint64_t values[4]);

/* The clash check of one table. 0: 0 for a clear table, or 1 and the pair of constructors. 1: section, record.
 * 12: the table number. */
uint32_t dookerand_clash(const uint8_t *description, size_t description_len, uint32_t table, uint64_t values[4]);

/* The check of a decision tree proposed for one table.
 * 0: 0 for accepted, or 1, the first wrong leaf's node, eight bytes as a little-endian number, context that prove it.
 * 1: section, record. 12: the table number. 11: the first bad node, or 65,535. */
uint32_t dookerand_tree(const uint8_t *description, size_t description_len, uint32_t table, const uint8_t *tree,
                        size_t tree_len, uint64_t values[4]);

/* Builds the decision tree of one table that tests its lowest bits first, byte bits before context bits. The check
 * above accepts what is written. `tree_len` counts bytes, 16,382 always suffice, and `tree` overlaps no other slice.
 * Only answer 0 writes there: its bytes, from tree[0] on, and nothing behind them. 0: the bytes written. 1: section,
 * record. 12: the table number. 15: the pair of constructors that clash. 16, which has no value: the tree has more than
 * 4,095 nodes or more bytes than are lent. */
uint32_t dookerand_build(const uint8_t *description, size_t description_len, uint32_t table, uint8_t *tree,
                         size_t tree_len, uint64_t values[4]);

/* Decodes the instruction at the code's start, which has this address, to rows of four numbers each, in the order of
 * the walk: 0, constructor, start, length; 1, field, start, value; 2, field, start, name number; 3, expression, start,
 * value. `rows_len` counts numbers, 128 always suffice, and `rows` overlaps no other slice. Only answer 0 writes there:
 * its rows, from rows[0] on, and nothing behind them. 0: the rows written. 1: section, record. 2: place. 3 and 4: place,
 * table number. 5, 6 and 13: place. 7, 8 and 9: 0. */
uint32_t dookerand_decode(const uint8_t *description, size_t description_len, uint32_t context, uint32_t address,
                          const uint8_t *code, size_t code_len, int64_t *rows, size_t rows_len, uint64_t values[4]);

/* Decodes the instruction at the code's start, which has this address, to text. `text_len` counts bytes, 256 always
 * suffice, and `text` overlaps no other slice. Only answer 0 writes there: its bytes, from text[0] on, without a 0 at
 * their end, and nothing behind them. 0: the bytes written. 1: section, record. 2: place. 3 and 4: place, table number.
 * 5, 6 and 13: place. 7, 8, 9 and 10: 0. */
uint32_t dookerand_text(const uint8_t *description, size_t description_len, uint32_t context, uint32_t address,
                        const uint8_t *code, size_t code_len, uint8_t *text, size_t text_len, uint64_t values[4]);

/* Sweeps the code from byte 0 on, which has this address, to rows of four numbers each: start, length, answer, root
 * constructor. A place's address is that of byte 0 plus the place, above 2^32 too. Instructions are looked for where it
 * is a multiple of `alignment`, which is 1, 2, 4 or 8. One that is refused by answers 3 to 8 or 13 is a gap with that
 * answer; a place that is no multiple is a gap with answer 14. A gap has constructor 65,535 and is as long as it is to
 * the next multiple after its start or to the code's end, whichever is first. An instruction is not stretched.
 * `rows_len` counts numbers; a rest below four is no row. `rows` overlaps no other slice. The rows stand from rows[0]
 * on, and nothing is written behind them. 0: the end, rows written, next byte; the end is 0 where the code is used up,
 * 1 where the rows are full, 2 where the instruction at a multiple is short, tested in this order. 1: section, record.
 * 12: the alignment. Neither writes rows. */
uint32_t dookerand_sweep(const uint8_t *description, size_t description_len, uint32_t context, uint32_t address,
                         uint32_t alignment, const uint8_t *code, size_t code_len, int64_t *rows, size_t rows_len,
                         uint64_t values[4]);

/* Lists the code, whose byte 0 has this address, from byte `from` on, a multiple or not, as lines: the byte's address
 * in lower-case hex, eight digits or as many as it needs, ": ", then the instruction's text, ".long" for a text of more
 * than 256 bytes, ".short" for an instruction that is cut off by the code's end, after which nothing follows, or for a
 * gap, which is as in a sweep with this alignment, ".byte " and all its bytes, each 0x and two digits, with ", "
 * between them; and a line feed. `text_len` counts bytes, 275 always suffice for a line, and `text` overlaps no other
 * slice. As many whole lines are written as fit, from text[0] on, and nothing behind them. 0: bytes written, lines
 * written, next place, end; the end is 1 where the line at the next place does not fit, and 0 where no line is left:
 * then the next place is the code's length, or `from` where that is not below it. 1: section, record. 12: the
 * alignment. Neither writes text. */
uint32_t dookerand_list(const uint8_t *description, size_t description_len, uint32_t context, uint32_t address,
                        uint32_t alignment, const uint8_t *code, size_t code_len, uint64_t from, uint8_t *text,
                        size_t text_len, uint64_t values[4]);

#ifdef __cplusplus
}
#endif

#endif
