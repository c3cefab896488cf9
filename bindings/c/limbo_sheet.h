/* A sheet of Limbo declarations to its listing, and to the image of its data. Link libexport.a, which `rt lib`, called
 * in crates/export, writes to crates/export/out. The code is proved; a caller in C is checked by nothing and owes this:
 *
 * - A buffer is a pointer to its first byte and its length in bytes, all of which may be read, and written where the buffer is not
 *   const. No pointer is NULL, also where the length is 0. No length passes PTRDIFF_MAX.
 * - A buffer that is written (listing, image, area, work) overlaps no other buffer of the same call.
 * - During a call nothing else writes its sheet, and nothing else reads or writes its written buffers.
 *
 * Any bytes are a sheet, any lengths will do, and buffers may hold anything before the call. The functions read and write the given
 * buffers only and keep nothing between calls, so that calls with other buffers may run in several threads at once.
 *
 * Every written buffer is written whole. The listing, the image and the area hold their bytes and zeros behind them, and after
 * a refusal zeros only; the working space holds zeros in any case. */
#ifndef LIMBO_SHEET_H
#define LIMBO_SHEET_H

#if !defined(__x86_64__) || !defined(__LP64__) || !defined(__linux__)
#error "libexport.a has code for x86-64 Linux with pointers of 64 bits only"
#endif

#include <stddef.h>
#include <stdint.h>

#ifdef __cplusplus
extern "C" {
#endif

/* A longer sheet is refused by 1. */
#define LIMBO_SHEET_LONGEST 65535

/* A working space of fewer bytes is refused by 2. */
#define LIMBO_SHEET_WORK 65536

/* number: 0, or 1 to 13 where the sheet is refused; line: the refused line, from 1, and 0 for the numbers 1, 2 and 13 and where
 * nothing is refused. listing, image and area are lengths in bytes: 0 after a refusal, and never more than the buffer's. Refused is
 * a sheet where
 *
 *  1  it passes 65,535 bytes
 *  2  the working space is under 65,536 bytes
 *  3  a line has no form, passes 255 bytes (LF not counted) or lacks LF, or is line 1,025
 *  4  a reference has the wrong kind, is 0 where a line is needed, or is not earlier or not first
 *  5  references nest over 32 lines, the line itself counted
 *  6  `mod` stands in `mod`, `end` outside, or the last line leaves `mod` open
 *  7  `con`, `need` or `frame` lines pass 128 each, records plus tags (at their `pick` line) 128, or `var` names 256
 *  8  a fold builds a string over 256 bytes
 *  9  an `alloc` length passes 2,147,483,647 or is below -2,147,483,648
 * 10  an `alloc` length is otherwise negative
 * 11  a literal, not pending, places an index outside its size
 * 12  a literal's length otherwise passes 1,024
 * 13  listing, image or area outgrows its buffer
 */
struct limbo_sheet_compiled {
    uint8_t number;
    size_t line;
    size_t listing;
};

struct limbo_sheet_laid {
    uint8_t number;
    size_t line;
    size_t listing;
    size_t image;
    size_t area;
};

/* The bytes sheet[start] to sheet[start + length - 1]. */
struct limbo_sheet_part {
    size_t start;
    size_t length;
};

/* The listing of a sheet. */
struct limbo_sheet_compiled limbo_sheet_compile(const uint8_t *sheet, size_t sheet_length,
                                                uint8_t *listing, size_t listing_length,
                                                uint8_t *work, size_t work_length);

/* The listing of a sheet, the image of its data and the area of its arrays. */
struct limbo_sheet_laid limbo_sheet_image(const uint8_t *sheet, size_t sheet_length,
                                          uint8_t *listing, size_t listing_length,
                                          uint8_t *image, size_t image_length,
                                          uint8_t *area, size_t area_length,
                                          uint8_t *work, size_t work_length);

/* Field i, from 0, of a line, from 1, of any bytes; where either is not there, the empty part at the sheet's end. */
struct limbo_sheet_part limbo_sheet_field(const uint8_t *sheet, size_t sheet_length, size_t line, size_t i);

#ifdef __cplusplus
}
#endif

#endif
