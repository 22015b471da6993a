/* Prints the cells of a lone symbol: a word for each row, in hexadecimal. The crop comes on standard input.
 *
 *     cc -std=c99 -Iinclude examples/c/cells.c crates/tunnel/out/libtunnel.a -o target/cells-c
 *     target/cells-c < examples/lone.crop
 */
#include <maxicode.h>
#include <stdio.h>

int main(void) {
    static uint8_t file[MAXICODE_LONGEST];
    static uint64_t words[MAXICODE_MOST_WORDS];
    uint32_t cells[MAXICODE_CELL_ROWS];
    size_t length = fread(file, 1, MAXICODE_LONGEST, stdin);
    if (ferror(stdin)) {
        fprintf(stderr, "standard input cannot be read\n");
        return 1;
    }
    uint32_t answer = maxicode_check(file, length);
    if (answer == 0) {
        /* The words must have exactly the image's length. */
        size_t size = maxicode_image_words(maxicode_file_width(file), maxicode_file_height(file));
        answer = maxicode_cells_file(file, length, words, size, cells, MAXICODE_CELL_ROWS);
    }
    if (answer != 0) {
        fprintf(stderr, "no cells: answer %u\n", answer);
        return 1;
    }
    for (int row = 0; row < MAXICODE_CELL_ROWS; row++)
        printf("%08x\n", cells[row]);
    return 0;
}
