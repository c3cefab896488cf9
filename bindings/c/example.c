/* Reads a sheet on standard input; prints its listing, its image and its area, or the refusal and the field that begins the
 * refused line. */
#include <stdio.h>

#include "limbo_sheet.h"

#define LENT 65536

static uint8_t sheet[LIMBO_SHEET_LONGEST + 1]; /* one byte more, so that a longer sheet is seen to be one */
static uint8_t listing[LENT];
static uint8_t image[LENT];
static uint8_t area[LENT];
static uint8_t work[LIMBO_SHEET_WORK];

static void print_hex(const char *name, const uint8_t *bytes, size_t length)
{
    printf("%s,", name);
    for (size_t i = 0; i < length; i++) {
        printf("%02X", bytes[i]);
    }
    putchar('\n');
}

static void print_refusal(size_t length, unsigned number, size_t line)
{
    struct limbo_sheet_part first = limbo_sheet_field(sheet, length, line, 0);
    printf("no,%u,%zu\nfield,%zu,%zu,", number, line, first.start, first.length);
    fwrite(sheet + first.start, 1, first.length, stdout);
    putchar('\n');
}

int main(void)
{
    size_t length = fread(sheet, 1, sizeof sheet, stdin);
    if (ferror(stdin)) {
        perror("standard input");
        return 2;
    }
    struct limbo_sheet_compiled c = limbo_sheet_compile(sheet, length, listing, sizeof listing, work, sizeof work);
    if (c.number != 0) {
        print_refusal(length, c.number, c.line);
        return 1;
    }
    fwrite(listing, 1, c.listing, stdout);
    struct limbo_sheet_laid l = limbo_sheet_image(sheet, length, listing, sizeof listing, image, sizeof image, area, sizeof area, work, sizeof work);
    if (l.number != 0) {
        print_refusal(length, l.number, l.line);
        return 1;
    }
    print_hex("image", image, l.image);
    print_hex("area", area, l.area);
    return 0;
}
