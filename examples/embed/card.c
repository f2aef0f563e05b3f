/*
 * card FILE [--colour | --ascii]: shows a sheet image as text in UTF-8, painted in bands of
 * eight rows as a small display would do it. With --colour it is shown in its colours. With
 * --ascii the whole sheet is painted by one call, and shown with the characters of ASCII.
 *
 * Exit status: 0 shown; 1 the image is refused; 2 a bad call, a file that cannot be read or is
 * no file of words, no memory, or output that cannot be written.
 */
#include "../../include/pivotdawn.h"

#include <errno.h>
#include <stdio.h>
#include <stdlib.h>
#include <string.h>

enum status { SHOWN = 0, REFUSED = 1, NOT_TRIED = 2 };

enum { BAND_ROWS = 8, WORD_BYTES = 4, MOST_BYTES = PIVOTDAWN_MOST_WORDS * WORD_BYTES };

/* How a sheet is shown. */
enum form {
    PLAIN,    /* as text, band by band */
    COLOURED, /* the same in its colours */
    ASCII     /* from the cells of the whole sheet */
};

/* An image, and the buffers that a band of it, or all of it, is painted in. */
struct sheet {
    const char *path;
    uint32_t *image;
    size_t words;
    enum form form;
    size_t plane_words; /* of the cells, and if coloured of the colours and of the stamps */
    uint32_t *cells;
    uint32_t *colours;
    uint32_t *stamps;
    size_t scratch_words;
    uint32_t *scratch;
    size_t out_bytes;
    uint8_t *out; /* the text of a band, or the line of a row in ASCII */
};

static int not_tried(const char *path, const char *why)
{
    fprintf(stderr, "card: %s: %s\n", path, why);
    return NOT_TRIED;
}

/* ---- refusals in words ---- */

static const char *const reasons[] = {
    [PIVOTDAWN_ACCEPTED] = "accepted",
    [PIVOTDAWN_NO_HEADER] = "it is too short for a header",
    [PIVOTDAWN_BAD_HEADER] = "a number of the header is over its limit, or has a spare bit set",
    [PIVOTDAWN_WRONG_LENGTH] = "it is not as long as its header says",
    [PIVOTDAWN_BAD_FIELD] = "a field holds what it may not hold, or points out of its table",
    [PIVOTDAWN_BAD_RANGE] = "a width range is upside down, out of order, or holds a space, quote or bracket",
    [PIVOTDAWN_CONTROL_CHARACTER] = "a glyph is a control character",
    [PIVOTDAWN_CORNER_OUTSIDE] = "an edge has a corner above row 0 or left of column 0",
    [PIVOTDAWN_LISTED_TWICE] = "an element lists what is listed already",
    [PIVOTDAWN_LIST_DISORDER] = "an element's rows are upside down, or it starts above the one before it",
    [PIVOTDAWN_ROW_UNLISTED] = "a node, edge or subgraph shows on a row that it is not listed for",
    [PIVOTDAWN_FEW_RUNS] = "the run capacity is below the number of runs",
    [PIVOTDAWN_BAND_OUTSIDE] = "the band leaves the sheet, or the band height is 0",
    [PIVOTDAWN_SHORT_BUFFER] = "a buffer is too short",
    [PIVOTDAWN_SHORT_OUTPUT] = "the output is too short",
};

/* Of a code that there is. */
static const char *reason_of(uint32_t code)
{
    const char *reason = code < sizeof reasons / sizeof reasons[0] ? reasons[code] : NULL;

    return reason != NULL ? reason : "for a reason unknown";
}

static const char *const buffers[] = {
    [PIVOTDAWN_CELLS] = "the cells",
    [PIVOTDAWN_COLOURS] = "the colours",
    [PIVOTDAWN_STAMPS] = "the stamps",
    [PIVOTDAWN_SCRATCH] = "the scratch",
};

/* Where: what the place of a code means. */
static void tell_place(uint32_t code, uint64_t place)
{
    switch (code) {
    case PIVOTDAWN_NO_HEADER:
    case PIVOTDAWN_BAND_OUTSIDE:
    case PIVOTDAWN_SHORT_OUTPUT:
        break;
    case PIVOTDAWN_WRONG_LENGTH:
        fprintf(stderr, " (%llu words are wanted)", (unsigned long long)place);
        break;
    case PIVOTDAWN_SHORT_BUFFER:
        fprintf(stderr, " (%s)", place < sizeof buffers / sizeof buffers[0] ? buffers[place] : "unknown");
        break;
    default:
        fprintf(stderr, " (word %llu)", (unsigned long long)place);
    }
}

static int refused(const struct sheet *sheet, uint32_t code, uint64_t place)
{
    fprintf(stderr, "card: %s: refused, code %lu: %s", sheet->path, (unsigned long)code, reason_of(code));
    tell_place(code, place);
    fputc('\n', stderr);
    return REFUSED;
}

/* ---- reading ---- */

/* All bytes of a file, at most one more than an image may have. */
static int read_bytes(const char *path, unsigned char *bytes, size_t *count)
{
    FILE *file = fopen(path, "rb");
    int failed;

    if (file == NULL)
        return not_tried(path, strerror(errno));
    errno = 0;
    *count = fread(bytes, 1, MOST_BYTES + 1, file);
    failed = !ferror(file) ? 0 : errno != 0 ? errno : EIO;
    fclose(file);
    return failed != 0 ? not_tried(path, strerror(failed)) : SHOWN;
}

/* A word from a file: the most significant byte first. */
static uint32_t word_at(const unsigned char *bytes)
{
    return (uint32_t)bytes[0] << 24 | (uint32_t)bytes[1] << 16 | (uint32_t)bytes[2] << 8 | bytes[3];
}

static uint32_t *room_for(size_t words)
{
    return calloc(words > 0 ? words : 1, sizeof(uint32_t));
}

static int take_words(struct sheet *sheet, const unsigned char *bytes, size_t count)
{
    size_t i;

    if (count > MOST_BYTES)
        return not_tried(sheet->path, "longer than any sheet image");
    if (count % WORD_BYTES != 0)
        return not_tried(sheet->path, "not a whole number of words of four bytes");
    sheet->words = count / WORD_BYTES;
    sheet->image = room_for(sheet->words);
    if (sheet->image == NULL)
        return not_tried(sheet->path, "no memory for the image");
    for (i = 0; i < sheet->words; i++)
        sheet->image[i] = word_at(bytes + i * WORD_BYTES);
    return SHOWN;
}

static int read_image(struct sheet *sheet)
{
    unsigned char *bytes = malloc(MOST_BYTES + 1);
    size_t count = 0;
    int status;

    if (bytes == NULL)
        return not_tried(sheet->path, "no memory to read it");
    status = read_bytes(sheet->path, bytes, &count);
    if (status == SHOWN)
        status = take_words(sheet, bytes, count);
    free(bytes);
    return status;
}

/* ---- painting ---- */

static int check_image(const struct sheet *sheet)
{
    uint64_t answer[PIVOTDAWN_ANSWER_WORDS];
    uint32_t code = pivotdawn_check(sheet->image, sheet->words, answer, PIVOTDAWN_ANSWER_WORDS);

    return code == PIVOTDAWN_ACCEPTED ? SHOWN : refused(sheet, code, answer[PIVOTDAWN_PLACE]);
}

/* How much room the form wants. Only of an image that is accepted. */
static void measure_buffers(struct sheet *sheet)
{
    const uint32_t *image = sheet->image;

    if (sheet->form == ASCII) {
        sheet->plane_words = pivotdawn_sheet_words(image);
        sheet->scratch_words = pivotdawn_sheet_scratch_words(image);
        sheet->out_bytes = (size_t)image[PIVOTDAWN_WIDTH] + 1;
        return;
    }
    sheet->plane_words = pivotdawn_plane_words(image, BAND_ROWS);
    sheet->scratch_words = pivotdawn_scratch_words(image);
    sheet->out_bytes = sheet->form == COLOURED ? pivotdawn_coloured_text_bytes(image, BAND_ROWS)
                                               : pivotdawn_text_bytes(image, BAND_ROWS);
}

static int lend_buffers(struct sheet *sheet)
{
    int coloured = sheet->form == COLOURED;

    measure_buffers(sheet);
    sheet->cells = room_for(sheet->plane_words);
    sheet->scratch = room_for(sheet->scratch_words);
    sheet->out = malloc(sheet->out_bytes);
    if (coloured) {
        sheet->colours = room_for(sheet->plane_words);
        sheet->stamps = room_for(sheet->plane_words);
    }
    if (sheet->cells == NULL || sheet->scratch == NULL || sheet->out == NULL ||
        (coloured && (sheet->colours == NULL || sheet->stamps == NULL)))
        return not_tried(sheet->path, "no memory to paint it");
    return SHOWN;
}

/* ---- band by band, as text ---- */

/* Has a band as text; how many bytes it has goes into `bytes`. */
static int write_band(const struct sheet *sheet, size_t first, size_t rows, size_t *bytes)
{
    uint64_t answer[PIVOTDAWN_ANSWER_WORDS];
    uint32_t code;

    if (sheet->form == COLOURED)
        code = pivotdawn_paint_text_coloured(sheet->image, sheet->words, first, rows,
                                             sheet->cells, sheet->plane_words,
                                             sheet->colours, sheet->plane_words,
                                             sheet->stamps, sheet->plane_words,
                                             sheet->scratch, sheet->scratch_words,
                                             sheet->out, sheet->out_bytes,
                                             answer, PIVOTDAWN_ANSWER_WORDS);
    else
        code = pivotdawn_paint_text(sheet->image, sheet->words, first, rows,
                                    sheet->cells, sheet->plane_words,
                                    sheet->scratch, sheet->scratch_words,
                                    sheet->out, sheet->out_bytes,
                                    answer, PIVOTDAWN_ANSWER_WORDS);
    *bytes = (size_t)answer[PIVOTDAWN_BYTES];
    return code == PIVOTDAWN_ACCEPTED ? SHOWN : refused(sheet, code, answer[PIVOTDAWN_PLACE]);
}

/* Band after band: joined, their texts are the text of the sheet. */
static int show_bands(const struct sheet *sheet)
{
    size_t height = sheet->image[PIVOTDAWN_HEIGHT], first, rows, bytes;

    for (first = 0; first < height; first += rows) {
        rows = height - first < BAND_ROWS ? height - first : BAND_ROWS;
        if (write_band(sheet, first, rows, &bytes) != SHOWN)
            return REFUSED;
        fwrite(sheet->out, 1, bytes, stdout);
    }
    return SHOWN;
}

/* ---- the whole sheet, from its cells ---- */

/* All rows by one call. Eight at a time, or any number: the cells are the same. */
static int paint_whole(const struct sheet *sheet)
{
    uint64_t answer[PIVOTDAWN_ANSWER_WORDS];
    uint32_t code = pivotdawn_paint_sheet(sheet->image, sheet->words, BAND_ROWS,
                                          sheet->cells, sheet->plane_words,
                                          sheet->scratch, sheet->scratch_words,
                                          answer, PIVOTDAWN_ANSWER_WORDS);

    return code == PIVOTDAWN_ACCEPTED ? SHOWN : refused(sheet, code, answer[PIVOTDAWN_PLACE]);
}

/* Both columns of a wide character are `?`, so that the row keeps its width. */
static char ascii_of_text(uint32_t cell)
{
    int known = cell != PIVOTDAWN_CONTINUATION && PIVOTDAWN_CODE_POINT(cell) < 0x80;

    return known ? (char)PIVOTDAWN_CODE_POINT(cell) : '?';
}

static char ascii_of_stroke(uint32_t cell)
{
    int upright = PIVOTDAWN_ARM_UP(cell) != PIVOTDAWN_NO_ARM || PIVOTDAWN_ARM_DOWN(cell) != PIVOTDAWN_NO_ARM;
    int level = PIVOTDAWN_ARM_LEFT(cell) != PIVOTDAWN_NO_ARM || PIVOTDAWN_ARM_RIGHT(cell) != PIVOTDAWN_NO_ARM;

    return upright && level ? '+' : upright ? '|' : '-';
}

static char ascii_of_marker(uint32_t cell)
{
    static const char arrows[] = {
        [PIVOTDAWN_UP] = '^', [PIVOTDAWN_DOWN] = 'v', [PIVOTDAWN_LEFT] = '<', [PIVOTDAWN_RIGHT] = '>'
    };

    switch (PIVOTDAWN_MARKER_KIND(cell)) {
    case PIVOTDAWN_ARROW:
        return arrows[PIVOTDAWN_MARKER_DIRECTION(cell)];
    case PIVOTDAWN_SELF_LOOP:
        return '@';
    default:
        return 'o';
    }
}

static char ascii_of(uint32_t cell)
{
    switch (PIVOTDAWN_TAG(cell)) {
    case PIVOTDAWN_TEXT:
        return ascii_of_text(cell);
    case PIVOTDAWN_STROKE:
        return ascii_of_stroke(cell);
    case PIVOTDAWN_MARKER:
        return ascii_of_marker(cell);
    default:
        return ' ';
    }
}

/* The cells of all rows stay at hand: a display could show any of them, and again, and paint
   nothing anew. */
static int show_whole(const struct sheet *sheet)
{
    size_t width = sheet->image[PIVOTDAWN_WIDTH], height = sheet->image[PIVOTDAWN_HEIGHT], x, y;

    if (paint_whole(sheet) != SHOWN)
        return REFUSED;
    for (y = 0; y < height; y++) {
        for (x = 0; x < width; x++)
            sheet->out[x] = (uint8_t)ascii_of(sheet->cells[y * width + x]);
        sheet->out[width] = '\n';
        fwrite(sheet->out, 1, width + 1, stdout);
    }
    return SHOWN;
}

/* ---- the program ---- */

static int show_sheet(const struct sheet *sheet)
{
    int status = sheet->form == ASCII ? show_whole(sheet) : show_bands(sheet);

    if (status == SHOWN && (fflush(stdout) != 0 || ferror(stdout)))
        return not_tried("standard output", "cannot be written");
    return status;
}

static int card(struct sheet *sheet)
{
    int status = read_image(sheet);

    if (status == SHOWN)
        status = check_image(sheet);
    if (status == SHOWN)
        status = lend_buffers(sheet);
    if (status == SHOWN)
        status = show_sheet(sheet);
    free(sheet->image);
    free(sheet->cells);
    free(sheet->colours);
    free(sheet->stamps);
    free(sheet->scratch);
    free(sheet->out);
    return status;
}

/* The form that is asked for; 0 where there is no such form. */
static int take_form(const char *asked, enum form *form)
{
    if (strcmp(asked, "--colour") == 0)
        *form = COLOURED;
    else if (strcmp(asked, "--ascii") == 0)
        *form = ASCII;
    else
        return 0;
    return 1;
}

int main(int argc, char **argv)
{
    struct sheet sheet = {0};

    if (argc != 2 && !(argc == 3 && take_form(argv[2], &sheet.form))) {
        fputs("usage: card FILE [--colour | --ascii]\n", stderr);
        return NOT_TRIED;
    }
    sheet.path = argv[1];
    return card(&sheet);
}
