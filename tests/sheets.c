/*
 * sheets FILE..: holds the two calls that paint a whole sheet to what the calls for a band leave
 * of it, eight rows at a time. Each file is an image that is accepted. The calls are made at various
 * band heights, with just the room that include/pivotdawn.h states, with more, and with a word
 * less in each buffer in turn; every word that is lent is looked at, and those beyond.
 *
 * It prints how many calls agreed. Exit status: 0 all did; 1 one did not, or a file is no such image.
 */
#include "../include/pivotdawn.h"

#include <stdio.h>
#include <stdlib.h>

enum { BAND_ROWS = 8, MOST_BYTES = PIVOTDAWN_MOST_WORDS * 4, BEYOND = 3 };

/* The buffers, in the order of enum pivotdawn_buffer. */
enum { CELLS, COLOURS, STAMPS, SCRATCH, BUFFERS };

static const char *const names[BUFFERS] = {"cells word", "colours word", "stamps word", "scratch word"};

/* What stands in a buffer before a call. */
static const uint32_t before = 0xA5A5A5A5u;

static uint32_t image[PIVOTDAWN_MOST_WORDS];
static size_t words;
static size_t needed[BUFFERS];
static uint32_t *lent[BUFFERS];     /* needed words, and BEYOND more */
static uint32_t *expected[BUFFERS]; /* what the needed words hold once painted */
static unsigned long agreed;

/* A call, and what it must answer. */
struct asked {
    const char *path;        /* of the image */
    int coloured;            /* whether colours and stamps are lent too */
    size_t band;             /* the band height */
    size_t lengths[BUFFERS]; /* of the buffers, as they are lent */
    uint32_t code;           /* must be answered */
    uint64_t place;          /* must stand in the answer */
};

static void fail(const char *path, const char *why)
{
    fprintf(stderr, "sheets: %s: %s\n", path, why);
    exit(1);
}

static void differs(const struct asked *asked, const char *what, size_t index)
{
    fprintf(stderr, "sheets: %s: %s, band height %zu, expected code %lu: %s %zu is wrong\n", asked->path,
            asked->coloured ? "coloured" : "plain", asked->band, (unsigned long)asked->code, what, index);
    exit(1);
}

/* ---- the image, and what it comes to in bands ---- */

static void read_image(const char *path)
{
    static unsigned char bytes[MOST_BYTES];
    FILE *file = fopen(path, "rb");
    uint64_t answer[PIVOTDAWN_ANSWER_WORDS];
    size_t count, i;

    if (file == NULL)
        fail(path, "cannot be read");
    count = fread(bytes, 1, MOST_BYTES, file);
    fclose(file);
    words = count / 4;
    for (i = 0; i < words; i++)
        image[i] = (uint32_t)bytes[4 * i] << 24 | (uint32_t)bytes[4 * i + 1] << 16 | (uint32_t)bytes[4 * i + 2] << 8 |
                   bytes[4 * i + 3];
    if (pivotdawn_check(image, words, answer, PIVOTDAWN_ANSWER_WORDS) != PIVOTDAWN_ACCEPTED)
        fail(path, "refused");
}

static uint32_t *room_for(size_t count)
{
    uint32_t *room = calloc(count, sizeof(uint32_t));

    if (room == NULL)
        fail("memory", "none is left");
    return room;
}

/* Stamps and scratch are to be 0. */
static void paint_bands(const char *path)
{
    size_t height = image[PIVOTDAWN_HEIGHT], band_words = pivotdawn_plane_words(image, BAND_ROWS), first, rows;
    uint64_t answer[PIVOTDAWN_ANSWER_WORDS];

    for (first = 0; first < height; first += rows) {
        size_t at = pivotdawn_plane_words(image, first);
        rows = height - first < BAND_ROWS ? height - first : BAND_ROWS;
        if (pivotdawn_paint_coloured(image, words, first, rows, expected[CELLS] + at, band_words,
                                     expected[COLOURS] + at, band_words, expected[STAMPS], band_words,
                                     expected[SCRATCH], needed[SCRATCH], answer, PIVOTDAWN_ANSWER_WORDS) != PIVOTDAWN_ACCEPTED)
            fail(path, "a band is refused");
    }
}

static void make_buffers(void)
{
    size_t band_words = pivotdawn_plane_words(image, BAND_ROWS);
    int buffer;

    for (buffer = 0; buffer < BUFFERS; buffer++) {
        needed[buffer] = buffer == SCRATCH ? pivotdawn_sheet_scratch_words(image) : pivotdawn_sheet_words(image);
        lent[buffer] = room_for(needed[buffer] + BEYOND);
        expected[buffer] = room_for(needed[buffer] + band_words + 1);
    }
}

static void free_buffers(void)
{
    int buffer;

    for (buffer = 0; buffer < BUFFERS; buffer++) {
        free(lent[buffer]);
        free(expected[buffer]);
    }
}

/* ---- a call ---- */

static void fill_buffers(void)
{
    size_t i;
    int buffer;

    for (buffer = 0; buffer < BUFFERS; buffer++)
        for (i = 0; i < needed[buffer] + BEYOND; i++)
            lent[buffer][i] = before;
}

static uint32_t call(const struct asked *asked, uint64_t *answer)
{
    const size_t *lengths = asked->lengths;

    if (asked->coloured)
        return pivotdawn_paint_sheet_coloured(image, words, asked->band, lent[CELLS], lengths[CELLS],
                                              lent[COLOURS], lengths[COLOURS], lent[STAMPS], lengths[STAMPS],
                                              lent[SCRATCH], lengths[SCRATCH], answer, PIVOTDAWN_ANSWER_WORDS);
    return pivotdawn_paint_sheet(image, words, asked->band, lent[CELLS], lengths[CELLS],
                                 lent[SCRATCH], lengths[SCRATCH], answer, PIVOTDAWN_ANSWER_WORDS);
}

/* A plain sheet has no colours and no stamps lent, and what is refused leaves everything. */
static void look_at(const struct asked *asked, int buffer)
{
    int painted = asked->code == PIVOTDAWN_ACCEPTED && (asked->coloured || buffer == CELLS || buffer == SCRATCH);
    size_t i;

    for (i = 0; i < needed[buffer] + BEYOND; i++)
        if (lent[buffer][i] != (painted && i < needed[buffer] ? expected[buffer][i] : before))
            differs(asked, names[buffer], i);
}

static void ask(const struct asked *asked)
{
    uint64_t answer[PIVOTDAWN_ANSWER_WORDS] = {before, before};
    uint32_t code;
    int buffer;

    fill_buffers();
    code = call(asked, answer);
    if (code != asked->code)
        differs(asked, "code", code);
    if (answer[PIVOTDAWN_PLACE] != asked->place)
        differs(asked, "place", (size_t)answer[PIVOTDAWN_PLACE]);
    if (answer[1] != before)
        differs(asked, "answer word", 1);
    for (buffer = 0; buffer < BUFFERS; buffer++)
        look_at(asked, buffer);
    agreed++;
}

/* ---- what is asked ---- */

/* With as many words beyond those needed in each buffer. */
static struct asked asked_of(const char *path, int coloured, size_t band, size_t beyond)
{
    struct asked asked = {.path = path, .coloured = coloured, .band = band};
    int buffer;

    for (buffer = 0; buffer < BUFFERS; buffer++)
        asked.lengths[buffer] = needed[buffer] + beyond;
    return asked;
}

static void ask_heights(const char *path, int coloured)
{
    size_t height = image[PIVOTDAWN_HEIGHT], heights[] = {1, 2, 3, 7, 8, 13, 64, height, height + 1, SIZE_MAX}, i;

    for (i = 0; i < sizeof heights / sizeof heights[0]; i++) {
        struct asked just = asked_of(path, coloured, heights[i], 0), more = asked_of(path, coloured, heights[i], BEYOND);
        if (heights[i] == 0)
            continue;
        ask(&just);
        ask(&more);
    }
}

/* "band height 0 is 11, place 1; room is 12", in this order. */
static void ask_refusals(const char *path, int coloured)
{
    struct asked none = asked_of(path, coloured, 0, 0);
    int buffer;

    none.code = PIVOTDAWN_BAND_OUTSIDE;
    none.place = 1;
    ask(&none);
    none.lengths[SCRATCH] = 0;
    ask(&none);
    for (buffer = 0; buffer < BUFFERS; buffer++) {
        struct asked less = asked_of(path, coloured, BAND_ROWS, 0);
        if (needed[buffer] == 0 || (!coloured && (buffer == COLOURS || buffer == STAMPS)))
            continue;
        less.lengths[buffer]--;
        less.code = PIVOTDAWN_SHORT_BUFFER;
        less.place = (uint64_t)buffer + PIVOTDAWN_CELLS;
        ask(&less);
    }
}

int main(int argc, char **argv)
{
    int i, coloured;

    for (i = 1; i < argc; i++) {
        read_image(argv[i]);
        make_buffers();
        paint_bands(argv[i]);
        for (coloured = 0; coloured < 2; coloured++) {
            ask_heights(argv[i], coloured);
            ask_refusals(argv[i], coloured);
        }
        free_buffers();
    }
    printf("sheets: %lu calls on %d images agree with their bands\n", agreed, argc - 1);
    return 0;
}
