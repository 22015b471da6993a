/* Searches a crop file and prints what was found, in words.
 *
 *     cc -std=c99 -Iinclude examples/c/find.c crates/tunnel/out/libtunnel.a -o target/find-c
 *     target/find-c examples/parcel.crop
 */
#include <maxicode.h>
#include <stdio.h>

/* Records lent: a crop with more candidates is answered with 7. */
enum { RECORDS = 16 };

/* 1 to have each kept record checked for an ellipse, which takes longer. */
enum { ELLIPSE = 0 };

/* The file's first bytes, as many as decide its answer; 0 when it cannot be read. */
static int read_file(const char *name, uint8_t *file, size_t *length) {
    FILE *stream = fopen(name, "rb");
    if (stream == NULL) {
        perror(name);
        return 0;
    }
    *length = fread(file, 1, MAXICODE_LONGEST, stream);
    int failed = ferror(stream);
    fclose(stream);
    if (failed)
        fprintf(stderr, "%s: it cannot be read\n", name);
    return !failed;
}

static void print_record(const uint32_t *record) {
    printf("centre %u, %u radius %u", record[MAXICODE_FIELD_CENTER_X], record[MAXICODE_FIELD_CENTER_Y],
           record[MAXICODE_FIELD_RADIUS]);
    if (record[MAXICODE_FIELD_OUTCOME] == MAXICODE_OUTCOME_TURNED)
        printf(" turned by %.0f degrees", maxicode_float(record[MAXICODE_FIELD_ROTATION]));
    if (record[MAXICODE_FIELD_OUTCOME] == MAXICODE_OUTCOME_ELLIPSE)
        printf(" an ellipse");
    printf(" class %u\n", record[MAXICODE_FIELD_CLASS]);
}

int main(int argc, char **argv) {
    static uint8_t file[MAXICODE_LONGEST];
    static uint64_t words[MAXICODE_MOST_WORDS], marks[MAXICODE_MOST_WORDS];
    static uint32_t records[RECORDS * MAXICODE_RECORD_WORDS];
    size_t length;

    if (argc != 2) {
        fprintf(stderr, "usage: %s CROP\n", argv[0]);
        return 2;
    }
    if (!read_file(argv[1], file, &length))
        return 1;
    uint32_t refusal = maxicode_check(file, length);
    if (refusal != 0) {
        fprintf(stderr, "%s: refused with %u\n", argv[1], refusal);
        return 1;
    }
    /* Words and marks must have exactly the image's length. */
    size_t size = maxicode_image_words(maxicode_file_width(file), maxicode_file_height(file));
    struct maxicode_report report =
        maxicode_search_file(file, length, words, size, records, RECORDS * MAXICODE_RECORD_WORDS, marks, size, ELLIPSE);
    printf("answer %u, found %u, kept %u, read %u bits\n", report.answer, report.found, report.kept, report.marked);
    for (uint32_t i = 0; i < report.kept; i++)
        print_record(records + i * MAXICODE_RECORD_WORDS);
    return 0;
}
