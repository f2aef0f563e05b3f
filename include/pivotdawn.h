/*
 * pivotdawn.h: check a sheet image, paint any band of its rows, or all of them, and write a
 * band as text.
 *
 * The archive that `oracle/native-library pivotdawn FOLDER` writes, FOLDER/libpivotdawn.a, holds
 * the seven functions declared at the end. Plain C99; C++ may include it too.
 *
 *   1. Get the image into memory, as words.
 *   2. Ask pivotdawn_check, once. It answers PIVOTDAWN_ACCEPTED, or why not and where.
 *   3. Allocate cells for as many rows as you want at a time, and scratch:
 *      pivotdawn_plane_words and pivotdawn_scratch_words say how many words.
 *   4. Call pivotdawn_paint for each band, and read the cells. Or have each band as text:
 *      allocate as many bytes as pivotdawn_text_bytes says, call pivotdawn_paint_text, and
 *      write the bytes out.
 *
 * Where there is memory for the cells of the whole sheet, one call of pivotdawn_paint_sheet
 * does in place of a call for each band: pivotdawn_sheet_words and
 * pivotdawn_sheet_scratch_words say how many words it wants. It checks the image once, where
 * each call for a band checks it again.
 *
 * Nothing is allocated, opened, printed or kept by a call. All memory is the caller's, and
 * is the caller's again when the call returns.
 *
 * The image
 * ---------
 * A row of uint32_t words: in memory each in the byte order of the machine; in a file four
 * bytes each, the most significant first, and nothing before or after. So a reader puts
 * each word together from its four bytes. It begins with PIVOTDAWN_HEADER_WORDS words,
 * whose indexes are below; its tables follow in the order of the header's counts.
 *
 * Any words may be given: what is no image is refused, never trusted. A call looks at no
 * word past the length given.
 *
 * What every call asks of its pointers
 * ------------------------------------
 * No call can see whether a pointer is good. Of each pointer with its length:
 *
 *   - It is not null, is aligned for its type (uint32_t, uint64_t), and has as many words
 *     behind it as its length says; `out` as many bytes. Where the length is 0 give a good
 *     pointer all the same, to any word; it is not followed.
 *   - No two of one call overlap, not even in part, and not with the image.
 *   - Until the call returns, nobody else writes the image, or reads or writes the others.
 *
 * What stands in the buffers before a call is of no matter. They may be longer than needed;
 * words beyond those needed are left as they were, and so are bytes beyond those written.
 *
 * Threads and stack
 * -----------------
 * No state is kept, so calls may run at the same time in any number of threads, on one
 * image too, as long as no two share a buffer that is written.
 *
 * Leave a call 32 KiB of stack. Nothing calls itself, and the arrays on the stack are of
 * fixed size, whatever the image. Measured on x86-64 with the older toolchain, by filling the
 * stack of a thread, calling, and looking how far down it was written, with the frame of the caller, over 215
 * images, 10,491 bands of them, and each whole at up to ten band heights: check 13,096 bytes,
 * painting 18,760, coloured or not, text 18,760, coloured text 18,776, a whole sheet 18,792, a
 * coloured one 18,808. On Arm, when there was no call for a whole sheet or for text: check at
 * most 13,111, painting at most 18,263.
 */
#ifndef PIVOTDAWN_H
#define PIVOTDAWN_H

#include <stddef.h>
#include <stdint.h>

#ifdef __cplusplus
extern "C" {
#endif

/*
 * What a call answers. Rules are tried in the order of this list, so 13 between 5 and 6, and
 * the first that is broken is answered, with its place: `place` below says what that number
 * is. A word is given by its index in the image.
 */
enum pivotdawn_code {
    /* checked: the image keeps every rule; painted: the band, or the sheet, is in the cells.
       place 0 */
    PIVOTDAWN_ACCEPTED = 0,
    /* fewer words than a header has. place 0 */
    PIVOTDAWN_NO_HEADER = 1,
    /* a header word is above its limit or has a spare bit set. place: that word */
    PIVOTDAWN_BAD_HEADER = 2,
    /* more or fewer words than the header's counts come to. place: how many those are */
    PIVOTDAWN_WRONG_LENGTH = 3,
    /* a field holds what it may not, or points out of its table. place: that word */
    PIVOTDAWN_BAD_FIELD = 4,
    /* a width range is upside down, out of order, or holds a space, a quote or a bracket.
       place: the range's first word */
    PIVOTDAWN_BAD_RANGE = 5,
    /* a glyph is a control character, in a label or not. place: that glyph's word */
    PIVOTDAWN_CONTROL_CHARACTER = 13,
    /* an edge of several segments bends above row 0 or left of column 0. place: the edge's
       first word */
    PIVOTDAWN_CORNER_OUTSIDE = 6,
    /* an element names a thing that an earlier one names. place: the element's first word */
    PIVOTDAWN_LISTED_TWICE = 7,
    /* an element ends before it starts, or starts above the one before it. place: the
       element's first word */
    PIVOTDAWN_LIST_DISORDER = 8,
    /* a node, an edge or a subgraph shows on a row that no element lists it for. place: its
       first word */
    PIVOTDAWN_ROW_UNLISTED = 9,
    /* the sheet has more runs than the header's run capacity. place 2, that header word */
    PIVOTDAWN_FEW_RUNS = 10,
    /* the band goes past the last row of the sheet: place 0. The band height of a whole sheet
       is 0: place 1 */
    PIVOTDAWN_BAND_OUTSIDE = 11,
    /* a buffer is too short. place: which, an enum pivotdawn_buffer; the first such one */
    PIVOTDAWN_SHORT_BUFFER = 12,
    /* the output has fewer bytes than the room that the call asks for. place 0 */
    PIVOTDAWN_SHORT_OUTPUT = 20
};

/* The places of PIVOTDAWN_SHORT_BUFFER. */
enum pivotdawn_buffer {
    PIVOTDAWN_CELLS = 1,
    PIVOTDAWN_COLOURS = 2,
    PIVOTDAWN_STAMPS = 3,
    PIVOTDAWN_SCRATCH = 4
};

/* The words of `answer`: where a call tells more than its code. */
enum pivotdawn_answer {
    PIVOTDAWN_PLACE = 0,       /* of every call */
    PIVOTDAWN_RUNS = 1,        /* of pivotdawn_check alone */
    PIVOTDAWN_BYTES = 1,       /* of the two calls for text alone */
    PIVOTDAWN_ANSWER_WORDS = 2 /* as many as are ever written */
};

/* The header of an image: the index of each word. */
enum pivotdawn_header {
    PIVOTDAWN_WIDTH = 0,        /* columns of the sheet, to 1,024 */
    PIVOTDAWN_HEIGHT = 1,       /* rows of the sheet, to 32,767 */
    PIVOTDAWN_RUN_CAPACITY = 2, /* runs that the scratch is to hold, to 16,384 */
    PIVOTDAWN_FLAGS = 3,        /* bit 31: no placed label on a node's row; bit 30: show dummies */
    PIVOTDAWN_NODES = 4,        /* how many records each table has; this and the next three to 1,024 */
    PIVOTDAWN_EDGES = 5,
    PIVOTDAWN_SUBGRAPHS = 6,
    PIVOTDAWN_PLACED_LABELS = 7,
    PIVOTDAWN_ELEMENTS = 8,      /* to 3,072 */
    PIVOTDAWN_POINTS = 9,        /* to 8,192 */
    PIVOTDAWN_GLYPHS = 10,       /* to 16,384 */
    PIVOTDAWN_WIDTH_RANGES = 11, /* to 1,024 */
    PIVOTDAWN_HEADER_WORDS = 12
};

/*
 * The tables, and the words of a record of each. A label is a start and a count among the
 * glyphs; places are columns (x) and rows (y) of the sheet, from 0. What each word may hold,
 * and which bit of the flags is what, is in docs/READING.md, "The sheet image".
 *
 *   node           9   x, y, width, height, label start, label count, flags, x and y of its self-loop
 *   edge          12   x and y it comes from, x and y it goes to, flags, three numbers of its path,
 *                      label start, label count, colour, colour of its label
 *   subgraph       8   x, y, width, height, label start, label count, flags, colour
 *   placed label   4   whose it is (the number of an edge), x, y, flags
 *   element        4   what (0 a node, 1 an edge, 2 a subgraph), its number, first row, last row
 *   point          2   x, y
 *   glyph          1   a code point, but none of a control character (0000 to 001F, 007F to 009F)
 *   width range    3   first code point, last code point, their width (0 or 2; else it is 1)
 */

/* As many words as an image has with every table full: no longer one is accepted. */
#define PIVOTDAWN_MOST_WORDS 81932

/*
 * Room. Only of an image that pivotdawn_check accepts, and of rows that it has: then no
 * plane is over 33,553,408 words, no scratch over 134,144, or 137,216 for a whole sheet, no
 * text over 134,246,399 bytes, and no coloured text over 771,892,219.
 */

/* words of the cells for a band of so many rows, and of the colours and of the stamps */
static inline size_t pivotdawn_plane_words(const uint32_t *image, size_t rows)
{
    return (size_t)image[PIVOTDAWN_WIDTH] * rows;
}

/* words of the scratch, whatever the band */
static inline size_t pivotdawn_scratch_words(const uint32_t *image)
{
    return 8 * (size_t)image[PIVOTDAWN_RUN_CAPACITY] + image[PIVOTDAWN_ELEMENTS];
}

/* bytes of the output for the text of a band of so many rows: four for each cell, and a line
   feed for each row */
static inline size_t pivotdawn_text_bytes(const uint32_t *image, size_t rows)
{
    return rows * (4 * (size_t)image[PIVOTDAWN_WIDTH] + 1);
}

/* the same for the coloured text: a colour too for each cell, and colour 0 again for each row */
static inline size_t pivotdawn_coloured_text_bytes(const uint32_t *image, size_t rows)
{
    return rows * (23 * (size_t)image[PIVOTDAWN_WIDTH] + 5);
}

/* words of the cells for the whole sheet, and of the colours and of the stamps */
static inline size_t pivotdawn_sheet_words(const uint32_t *image)
{
    return pivotdawn_plane_words(image, image[PIVOTDAWN_HEIGHT]);
}

/* words of the scratch for the whole sheet, whatever the band height: that of a band, and a
   word more for each element */
static inline size_t pivotdawn_sheet_scratch_words(const uint32_t *image)
{
    return pivotdawn_scratch_words(image) + image[PIVOTDAWN_ELEMENTS];
}

/*
 * A cell says what stands there, not which character shows it; docs/TEXT.md has the
 * characters that the two calls for text choose. The word of column x in row y
 * of a band, both counted from 0, is cells[y * width + x].
 */

/* what a cell holds */
#define PIVOTDAWN_TAG(cell) ((uint32_t)(cell) >> 30)

enum pivotdawn_tag {
    PIVOTDAWN_EMPTY = 0,
    PIVOTDAWN_TEXT = 1,
    PIVOTDAWN_STROKE = 2,
    PIVOTDAWN_MARKER = 3
};

/* text: a character by its code point, never a control character; or PIVOTDAWN_CONTINUATION,
   the second column of the character to its left, which is two columns wide by the image's
   ranges. A row has both columns of such a character or neither, in every band: it neither
   begins with a continuation nor ends with half a character. No character has width 0, so
   the widths of a row's characters, and 1 for each other cell but a continuation, sum to
   the width of the sheet */
#define PIVOTDAWN_CODE_POINT(cell) ((uint32_t)(cell) & 0x1FFFFFu)
#define PIVOTDAWN_CONTINUATION 0x40200000u

/* a stroke: from the middle of the cell, the weight of its arm to each side */
#define PIVOTDAWN_ARM_UP(cell) ((uint32_t)(cell) & 7u)
#define PIVOTDAWN_ARM_DOWN(cell) (((uint32_t)(cell) >> 3) & 7u)
#define PIVOTDAWN_ARM_LEFT(cell) (((uint32_t)(cell) >> 6) & 7u)
#define PIVOTDAWN_ARM_RIGHT(cell) (((uint32_t)(cell) >> 9) & 7u)

enum pivotdawn_weight {
    PIVOTDAWN_NO_ARM = 0,
    PIVOTDAWN_DASHED = 1,
    PIVOTDAWN_LIGHT = 2,
    PIVOTDAWN_DOUBLE = 3
};

/* a marker: its kind, the direction it points in, and whether it is drawn dashed (1) or not (0) */
#define PIVOTDAWN_MARKER_KIND(cell) ((uint32_t)(cell) & 15u)
#define PIVOTDAWN_MARKER_DIRECTION(cell) (((uint32_t)(cell) >> 4) & 3u)
#define PIVOTDAWN_MARKER_DASHED(cell) (((uint32_t)(cell) >> 6) & 1u)

enum pivotdawn_marker {
    PIVOTDAWN_ARROW = 1,
    PIVOTDAWN_SELF_LOOP = 2, /* at a node that has an edge to itself */
    PIVOTDAWN_DUMMY = 3      /* where a layout passes an edge on through a row */
};

enum pivotdawn_direction {
    PIVOTDAWN_UP = 0,
    PIVOTDAWN_DOWN = 1,
    PIVOTDAWN_LEFT = 2,
    PIVOTDAWN_RIGHT = 3
};

/*
 * Every call answers a code, an enum pivotdawn_code, and writes into `answer`, which has
 * `answer_words` words. Words that are not there are not written, so any number of them will
 * do, also 0; PIVOTDAWN_ANSWER_WORDS are enough for all. No other word of it changes.
 */

/*
 * Is this an image? Codes 0 to 10, and 13.
 *
 * answer[PIVOTDAWN_PLACE]: the place; 0 where accepted.
 * answer[PIVOTDAWN_RUNS]: the number of runs, which is what the run capacity has to hold; 0
 * where refused.
 */
uint32_t pivotdawn_check(const uint32_t *image, size_t words, uint64_t *answer, size_t answer_words);

/*
 * Paints the rows first, first + 1 .. first + rows - 1. Codes 0 to 13: the image is checked
 * anew by each call. Any numbers may be asked for; 0 rows of a sheet paint nothing, yet want
 * the scratch.
 *
 * cells: pivotdawn_plane_words of the rows. Painted, they hold those rows, one after the
 * other, from the left.
 * scratch: pivotdawn_scratch_words, to work in. Painted, they are 0.
 * answer[PIVOTDAWN_PLACE]: the place; 0 where painted.
 *
 * Refused, no word of cells and scratch changes. However a sheet is cut into bands, its rows
 * are the same.
 */
uint32_t pivotdawn_paint(const uint32_t *image, size_t words, size_t first, size_t rows,
                         uint32_t *cells, size_t cell_words,
                         uint32_t *scratch, size_t scratch_words,
                         uint64_t *answer, size_t answer_words);

/*
 * The same with colours. The cells are those of pivotdawn_paint.
 *
 * colours: pivotdawn_plane_words of the rows. Painted, they hold the colour of each cell, as
 * the image has it; 0 where nothing gave one. What a colour means is the caller's affair.
 * stamps: pivotdawn_plane_words of the rows, to work in. Painted, they are 0.
 *
 * Refused, no word of cells, colours, stamps and scratch changes.
 */
uint32_t pivotdawn_paint_coloured(const uint32_t *image, size_t words, size_t first, size_t rows,
                                  uint32_t *cells, size_t cell_words,
                                  uint32_t *colours, size_t colour_words,
                                  uint32_t *stamps, size_t stamp_words,
                                  uint32_t *scratch, size_t scratch_words,
                                  uint64_t *answer, size_t answer_words);

/*
 * Paints the rows as pivotdawn_paint does, and writes them as text in UTF-8. Codes 0 to 13,
 * as pivotdawn_paint answers them; then 20, tried last, and before anything is painted.
 *
 * cells, scratch: as of pivotdawn_paint, and afterwards too.
 * out: pivotdawn_text_bytes of the rows. Written, it begins with the text of those rows, one
 * after the other, each ended by one line feed: for an empty cell a space, for text its
 * character, for a continuation nothing, for a stroke a Box Drawing character (2500 to 257F),
 * for an arrow 2191, 2193, 2190 or 2192, for a self-loop 21BA, for a dummy 25CD. No 0 byte
 * ends it: its length is answered.
 * answer[PIVOTDAWN_PLACE]: the place; 0 where written.
 * answer[PIVOTDAWN_BYTES]: how many bytes were written; 0 where refused.
 *
 * Refused, no word of cells and scratch and no byte of out changes. However a sheet is cut
 * into bands, its text is the same.
 */
uint32_t pivotdawn_paint_text(const uint32_t *image, size_t words, size_t first, size_t rows,
                              uint32_t *cells, size_t cell_words,
                              uint32_t *scratch, size_t scratch_words,
                              uint8_t *out, size_t out_bytes,
                              uint64_t *answer, size_t answer_words);

/*
 * The same with colours, by ECMA-48 sequences. Without them the text is that of
 * pivotdawn_paint_text.
 *
 * cells, colours, stamps, scratch: as of pivotdawn_paint_coloured, and afterwards too.
 * out: pivotdawn_coloured_text_bytes of the rows. Each row starts and ends at colour 0, and a
 * sequence stands only where the colour of a cell that is written differs from the one before:
 *
 *   colour 0, and no other   ESC[0m             the reset
 *   1 to 7                   ESC[3Nm            red, green, yellow, blue, magenta, cyan, white
 *   8 to 255                 ESC[38;5;Nm        that one of 256
 *   from 256 on              ESC[38;2;R;G;Bm    its low 24 bits as red, green and blue
 *
 * Refused, no word of cells, colours, stamps and scratch and no byte of out changes.
 */
uint32_t pivotdawn_paint_text_coloured(const uint32_t *image, size_t words, size_t first, size_t rows,
                                       uint32_t *cells, size_t cell_words,
                                       uint32_t *colours, size_t colour_words,
                                       uint32_t *stamps, size_t stamp_words,
                                       uint32_t *scratch, size_t scratch_words,
                                       uint8_t *out, size_t out_bytes,
                                       uint64_t *answer, size_t answer_words);

/*
 * Paints all rows of the sheet. Codes 0 to 13: the image is checked, once; then 11 with place
 * 1 where `band` is 0; then 12. A sheet of 0 rows paints nothing, yet wants the scratch.
 *
 * band: how many rows are painted at a time, any number from 1; above the sheet's height it is
 * one band. What the buffers hold afterwards is the same for every number; the time is not.
 * Each band goes over the things that reach into it, so the fewer bands, the less there is to
 * do: SIZE_MAX, one band, is the quickest or near it, and a row at a time takes the longest.
 * Where the cells of the sheet are more than the processor's cache holds, as many rows as do
 * fit can be quicker still. docs/BENCHMARKS.md has times.
 * cells: pivotdawn_sheet_words. Painted, they hold the rows, one after the other, from the
 * left: the words that pivotdawn_paint leaves of row 0 and all rows of the sheet.
 * scratch: pivotdawn_sheet_scratch_words, to work in. Painted, they are 0.
 * answer[PIVOTDAWN_PLACE]: the place; 0 where painted.
 *
 * Refused, no word of cells and scratch changes.
 */
uint32_t pivotdawn_paint_sheet(const uint32_t *image, size_t words, size_t band,
                               uint32_t *cells, size_t cell_words,
                               uint32_t *scratch, size_t scratch_words,
                               uint64_t *answer, size_t answer_words);

/*
 * The same with colours. The cells are those of pivotdawn_paint_sheet.
 *
 * colours: pivotdawn_sheet_words. Painted, they hold the colour of each cell, as
 * pivotdawn_paint_coloured leaves it.
 * stamps: pivotdawn_sheet_words, to work in. Painted, they are 0.
 *
 * Refused, no word of cells, colours, stamps and scratch changes.
 */
uint32_t pivotdawn_paint_sheet_coloured(const uint32_t *image, size_t words, size_t band,
                                        uint32_t *cells, size_t cell_words,
                                        uint32_t *colours, size_t colour_words,
                                        uint32_t *stamps, size_t stamp_words,
                                        uint32_t *scratch, size_t scratch_words,
                                        uint64_t *answer, size_t answer_words);

#ifdef __cplusplus
}
#endif

#endif
