/* The proved MaxiCode bull's-eye finder, for C and C++. docs/MANUAL.md has the crop file, the answers and the record in words, and a
 * complete program. Link crates/tunnel/out/libtunnel.a, which `rt lib` writes in crates/tunnel.
 *
 * Every function may be called with any lengths and any content: what does not fit is refused, with a number or, of the lines, with
 * length 0. A pointer must lead to as many elements as the length after it says (with length 0 it may be NULL), and a buffer that is
 * written must not overlap another. No function allocates or keeps anything between calls: threads may call at once, each with buffers
 * of its own. */
#ifndef MAXICODE_H
#define MAXICODE_H

#include <stddef.h>
#include <stdint.h>
#include <string.h>

/* Answers: the first one that is true, in this order, and 0 when none is. 7 to 9 are a search's alone, 10 is that of cells. */
#define MAXICODE_ANSWER_KEPT 0        /* candidates are kept */
#define MAXICODE_ANSWER_NO_HEADER 1   /* no crop header */
#define MAXICODE_ANSWER_SIDES 2       /* width or height outside 33 to 2,048 */
#define MAXICODE_ANSWER_TOO_LARGE 3   /* more than 8,000 words */
#define MAXICODE_ANSWER_LENGTH 4      /* length does not match the dimensions */
#define MAXICODE_ANSWER_PADDING 5     /* a padding bit is 1 */
#define MAXICODE_ANSWER_BUFFER 6      /* a buffer of the wrong length */
#define MAXICODE_ANSWER_TOO_MANY 7    /* more candidates than the capacity */
#define MAXICODE_ANSWER_NONE_FOUND 8  /* no candidate is found */
#define MAXICODE_ANSWER_SET_ASIDE 9   /* every candidate is set aside */
#define MAXICODE_ANSWER_NO_BLACK 10   /* no pixel is black */

/* Sizes. */
#define MAXICODE_KIND 1               /* the kind in a crop file's first four bits */
#define MAXICODE_HEADER_BYTES 4       /* bytes before the rows of a crop file */
#define MAXICODE_WORD_BITS 64         /* pixels of a word */
#define MAXICODE_LEAST_SIDE 33        /* pixels of the shortest side */
#define MAXICODE_GREATEST_SIDE 2048   /* pixels of the longest side */
#define MAXICODE_MOST_WORDS 8000      /* words of the largest image */
#define MAXICODE_LONGEST 65536        /* bytes that decide a file's answer: no accepted file is as long */
#define MAXICODE_RECORD_WORDS 40      /* words of a record: the least record buffer */
#define MAXICODE_MOST_CANDIDATES 1024 /* records used of a longer record buffer */
#define MAXICODE_RECORDS 400          /* records that the program `find` and the command `bullseye` lend */
#define MAXICODE_REPORT_BYTES 80      /* bytes that hold the line of any report */
#define MAXICODE_RECORD_BYTES 200     /* bytes that hold the line of any record */
#define MAXICODE_CLASSES 5            /* handling classes, from 0 on */
#define MAXICODE_CLASS_WITHOUT_TURN 4 /* the class of each outcome but MAXICODE_OUTCOME_TURNED */
#define MAXICODE_CELL_ROWS 33         /* rows of cells, and words of a cell buffer */
#define MAXICODE_CELL_COLUMNS 30      /* cells of a row */

/* Fields: the place of each in a record. Pixels count from the crop's top left, x to the right, y downwards. */
#define MAXICODE_FIELD_CENTER_X 0       /* pixels: the centre as found */
#define MAXICODE_FIELD_CENTER_Y 1       /* pixels */
#define MAXICODE_FIELD_RADIUS 2         /* pixels */
#define MAXICODE_FIELD_ROW_RUNS 3       /* pixels: eleven runs of the row, from left to right */
#define MAXICODE_FIELD_COLUMN_RUNS 14   /* pixels: eleven runs of the column */
#define MAXICODE_FIELD_VARIANCE 25      /* f32 bits: how far the runs are from even; records are ranked by it, least first */
#define MAXICODE_FIELD_OUTCOME 26       /* one of the outcomes below */
#define MAXICODE_FIELD_SCALE 27         /* 1 to 5: the scale that gave the turn or lost the centre; 0 without either */
#define MAXICODE_FIELD_ROTATION 28      /* f32 bits: degrees, 0 to 348, even; 0 without a turn */
#define MAXICODE_FIELD_LAST_CENTER_X 29 /* pixels: the last centre inside the image */
#define MAXICODE_FIELD_LAST_CENTER_Y 30 /* pixels */
#define MAXICODE_FIELD_CORNERS 31       /* f32 bits: left bottom, left top, right bottom, right top, x before y; 0 for an ellipse */
#define MAXICODE_FIELD_CLASS 39         /* the handling class, 0 to 3: the turn in quarters; 4 without a turn */

/* Outcomes; an ellipse only where the check is asked for. */
#define MAXICODE_OUTCOME_NO_TURN 0     /* no turn */
#define MAXICODE_OUTCOME_TURNED 1      /* turned */
#define MAXICODE_OUTCOME_LOST_CENTRE 2 /* lost centre */
#define MAXICODE_OUTCOME_ELLIPSE 3     /* ellipse */

#ifdef __cplusplus
extern "C" {
#endif

/* What a search reports. After a refusal the counts are 0 and no buffer has changed. */
struct maxicode_report {
    uint32_t answer;
    uint32_t found;  /* the sweep's candidates; the capacity and one more with MAXICODE_ANSWER_TOO_MANY, 0 with .._NONE_FOUND */
    uint32_t kept;   /* those within the deviation: so many records are filled, best first */
    uint32_t marked; /* one bits of the marks */
};

/* The answer 1 to 5 that refuses a crop file, or 0. */
uint32_t maxicode_check(const uint8_t *file, size_t file_len);

/* Unpacks a crop file into `words`, of exactly the image's number. They are written only when the answer is 0; else it is that of
 * maxicode_check, or 6 for another number of words. */
uint32_t maxicode_unpack(const uint8_t *file, size_t file_len, uint64_t *words, size_t words_len);

/* Searches an image in words: each row starts a word, column c is bit c mod 64 of the row's word c / 64, 1 is black. The capacity is
 * the number of whole records lent, MAXICODE_MOST_CANDIDATES at most. The marks, as many words as the image has, get a one for each bit
 * that was read. Once searched, whole records from the kept ones to the capacity are zeros; words beyond are left as they were.
 * `ellipse` is 0, or any other number to have each kept record checked for an ellipse: one gets MAXICODE_OUTCOME_ELLIPSE and no box.
 * The check reads more: a search of a label mostly takes up to half as long again, of some crops far longer. */
struct maxicode_report maxicode_search_words(const uint64_t *words, size_t words_len, uint32_t width, uint32_t height,
                                             uint32_t *records, size_t records_len, uint64_t *marks, size_t marks_len,
                                             uint32_t ellipse);

/* Searches a crop file, which it unpacks into `words`, of exactly the image's number; `ellipse` as above. */
struct maxicode_report maxicode_search_file(const uint8_t *file, size_t file_len, uint64_t *words, size_t words_len,
                                            uint32_t *records, size_t records_len, uint64_t *marks, size_t marks_len,
                                            uint32_t ellipse);

/* Reads the cells of a lone symbol in an image in words: MAXICODE_CELL_ROWS rows, a word each, of MAXICODE_CELL_COLUMNS cells, column c
 * at bit c, 1 is black; the bits above are zeros. The cells lie in the enclosing rectangle of the black pixels; docs/MANUAL.md says
 * where. Returns 0 with the cells written; a refusal, 6 for a cell buffer of another length than MAXICODE_CELL_ROWS; or
 * MAXICODE_ANSWER_NO_BLACK, with the cells as they were. */
uint32_t maxicode_cells_words(const uint64_t *words, size_t words_len, uint32_t width, uint32_t height, uint32_t *cells,
                              size_t cells_len);

/* The same of a crop file, which it unpacks into `words`, exactly as many as the image has, else 6. They are written with 0 and with
 * MAXICODE_ANSWER_NO_BLACK. */
uint32_t maxicode_cells_file(const uint8_t *file, size_t file_len, uint64_t *words, size_t words_len, uint32_t *cells,
                             size_t cells_len);

/* Puts the lines of a run, as the program `find` prints them, at the start of `text`, and returns how long they are; no zero follows
 * them. A buffer of less than MAXICODE_REPORT_BYTES + MAXICODE_RECORD_BYTES * kept, or fewer records lent than kept: nothing is
 * written, and the length is 0. */
size_t maxicode_lines(uint32_t answer, uint32_t found, uint32_t kept, uint32_t marked, const uint32_t *records, size_t records_len,
                      uint8_t *text, size_t text_len);

#ifdef __cplusplus
}
#endif

/* Whether a call with this answer was refused: nothing but the answer is to be looked at then. */
static inline int maxicode_refused(uint32_t answer) {
    return MAXICODE_ANSWER_NO_HEADER <= answer && answer <= MAXICODE_ANSWER_BUFFER;
}

/* The sides of a crop file with a whole header, to lend buffers of the right length. */
static inline uint32_t maxicode_file_width(const uint8_t *file) {
    return (uint32_t)(file[0] & 15) << 8 | file[1];
}

static inline uint32_t maxicode_file_height(const uint8_t *file) {
    return (uint32_t)file[2] << 4 | file[3] >> 4;
}

/* The words of an image, and of its marks. */
static inline size_t maxicode_image_words(uint32_t width, uint32_t height) {
    return ((size_t)width + MAXICODE_WORD_BITS - 1) / MAXICODE_WORD_BITS * height;
}

/* The number that a field of f32 bits holds. */
static inline float maxicode_float(uint32_t bits) {
    float number;
    memcpy(&number, &bits, sizeof number);
    return number;
}

#endif
