/* Makes calls of the library and writes what is seen after them, byte for byte, to standard output: first what the header's own
 * functions say of answers, then calls with nothing lent, then for each line `PATH WIDTH HEIGHT WORDS RECORDS MARKS CELLS ELLIPSE` of
 * standard input the six functions on that file, with buffers of these lengths. Lines that hold no such call end it with status 1. */
#include <maxicode.h>
#include <stdio.h>
#include <string.h>

enum { MOST = 65536 };

/* Every byte of a lent buffer before a call. */
enum { PATTERN = 0xa5 };

typedef char report_is_four_words[sizeof(struct maxicode_report) == 16 ? 1 : -1];

static uint8_t file[2 * MOST];
static uint64_t words[MOST], marks[MOST];
static uint32_t records[MOST], cells[MOST];

struct lengths {
    size_t file, words, records, marks, cells;
};

static void put(const void *bytes, size_t count) {
    fwrite(bytes, 1, count, stdout);
}

static void put_number(uint32_t number) {
    put(&number, sizeof number);
}

static void put_search(struct maxicode_report report, const struct lengths *lent) {
    put(&report, sizeof report);
    put(words, lent->words * sizeof *words);
    put(records, lent->records * sizeof *records);
    put(marks, lent->marks * sizeof *marks);
}

static void put_cells(uint32_t answer, const struct lengths *lent) {
    put_number(answer);
    put(words, lent->words * sizeof *words);
    put(cells, lent->cells * sizeof *cells);
}

static void fill(void) {
    memset(records, PATTERN, sizeof records);
    memset(marks, PATTERN, sizeof marks);
    memset(cells, PATTERN, sizeof cells);
}

static void calls(const struct lengths *lent, uint32_t width, uint32_t height, uint32_t ellipse) {
    put_number(maxicode_check(file, lent->file));
    memset(words, PATTERN, sizeof words);
    put_number(maxicode_unpack(file, lent->file, words, lent->words));
    put(words, lent->words * sizeof *words);
    fill();
    put_search(
        maxicode_search_words(words, lent->words, width, height, records, lent->records, marks, lent->marks, ellipse), lent);
    put_cells(maxicode_cells_words(words, lent->words, width, height, cells, lent->cells), lent);
    memset(words, PATTERN, sizeof words);
    fill();
    put_search(
        maxicode_search_file(file, lent->file, words, lent->words, records, lent->records, marks, lent->marks, ellipse), lent);
    memset(words, PATTERN, sizeof words);
    put_cells(maxicode_cells_file(file, lent->file, words, lent->words, cells, lent->cells), lent);
    if (lent->file >= MAXICODE_HEADER_BYTES) {
        put_number(maxicode_file_width(file));
        put_number(maxicode_file_height(file));
        put_number((uint32_t)maxicode_image_words(maxicode_file_width(file), maxicode_file_height(file)));
    }
}

static void nothing_lent(void) {
    struct maxicode_report words = maxicode_search_words(NULL, 0, 33, 33, NULL, 0, NULL, 0, 0);
    struct maxicode_report file = maxicode_search_file(NULL, 0, NULL, 0, NULL, 0, NULL, 0, 1);

    put_number(maxicode_check(NULL, 0));
    put_number(maxicode_unpack(NULL, 0, NULL, 0));
    put(&words, sizeof words);
    put(&file, sizeof file);
    put_number(maxicode_cells_words(NULL, 0, 33, 33, NULL, 0));
    put_number(maxicode_cells_file(NULL, 0, NULL, 0, NULL, 0));
}

int main(void) {
    char path[4096];
    unsigned width, height, lent_words, lent_records, lent_marks, lent_cells, ellipse;
    int read;

    for (uint32_t answer = 0; answer < 32; answer++)
        put_number((uint32_t)maxicode_refused(answer));
    nothing_lent();
    while ((read = scanf("%4095s %u %u %u %u %u %u %u", path, &width, &height, &lent_words, &lent_records, &lent_marks,
                         &lent_cells, &ellipse)) == 8) {
        FILE *stream = fopen(path, "rb");
        if (stream == NULL || lent_words > MOST || lent_records > MOST || lent_marks > MOST || lent_cells > MOST)
            return 1;
        struct lengths lent = {fread(file, 1, sizeof file, stream), lent_words, lent_records, lent_marks, lent_cells};
        fclose(stream);
        calls(&lent, width, height, ellipse);
    }
    return read != EOF;
}
