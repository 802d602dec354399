/*
 * Kwezirambo for C and C++: coloured nets with inhibitor arcs, their unfolding, and firing on both sides.
 * The archive is crates/exports/out/libexports.a, which `rt lib` in crates/exports proves and writes (x86-64 Linux).
 *
 * Every call returns a code and writes the numbers behind `first` and `second` (and `third`):
 *   0  refused: first = the refusal's number, second = its place (third = 0); every lent buffer is as it was before.
 *   1  done; each call says what the numbers are. A number of which nothing is said is 0.
 *   2  nothing found (kwz_first_row, kwz_first_order, kwz_row_order).
 *
 * Lists are lent as a pointer and a length in elements. A null pointer with length 0 is an empty list. The pointers to numbers and
 * to an order must not be null. What a call may write (marking, answers, images, flat, order, first, second, third) must not overlap
 * anything else that is lent to the same call; lists that are only read may overlap each other. A marking is aligned as uint16_t.
 * No call keeps a pointer, allocates memory or has state of its own, so calls on different buffers may run side by side.
 *
 * Stack, at most, on nets with expressions of 16 levels: kwz_fire_images and kwz_first_row take 315 KiB (11 KiB for a flat file of at most
 * 2,048 bytes), kwz_images 282 KiB (28 KiB where transitions with a guard have at most 1,024 bindings), kwz_unfold 152 KiB and kwz_fire_orders
 * and kwz_first_order 136 KiB (64 and 56 KiB where a row needs few arcs), kwz_net_sizes and kwz_row_order 24 KiB, kwz_flat_sizes less than 1 KiB.
 * Beyond these two sizes it does not grow with the length of the file or the lists; 1 MiB is enough for any call.
 *
 * Refusal numbers. In a file the place is a byte's position; 12, 13 and 14 have place 0.
 *    1  the net file is longer than 16,384 bytes (place 16,384)
 *    2  the file ends within a command, or before one that is needed (place: its length)
 *    3  a byte that is no command, or none that may stand there
 *    4  one set, variable, place, transition, flat place or row too many, or more than 4,096 colours in all places
 *    5  an edition, size, number, colour or rank that is not allowed; a weight 0 in a flat file
 *    6  the sets of two compared colours differ, or the set of an arc's colour and that of its place
 *    7  expressions nested deeper than 16 levels
 *    8  an arc expression that could weigh more than 65,535
 *    9  an arc or the tokens of a rank given twice; in a flat file, arcs out of order
 *   10  a transition with more than four variables (place: its 0x14)
 *   11  more than 65,536 bindings up to this transition (place: its 0x14)
 *   12  the marking's length is not the number of flat places
 *   13  the list of orders or images is no whole number of items (6 or 5 bytes each)
 *   14  the lent output is shorter than the answer
 *   15  bytes after the end command (place: the first of them)
 * "File refusals" are 2, 3, 4, 5, 9 and 15 for a flat file, and 1 to 11 and 15 for a net file. They come before 12, 13 and 14.
 *
 * Answer bytes of a firing: 0 fired; 1 no such transition, binding or row, or another command byte; 2 guard false (orders alone);
 * 3 a count is below its take; 4 an inhibitor hinders; 5 a count would pass 65,535. Only an order answered 0 changes the marking.
 */
#ifndef KWEZIRAMBO_H
#define KWEZIRAMBO_H

#include <stddef.h>
#include <stdint.h>

#ifdef __cplusplus
extern "C" {
#endif

/* ---- flat files ---- */

/* Reads a flat file. 1: first = flat places, second = rows. 0: the file refusals. */
uint8_t kwz_flat_sizes(const uint8_t *flat, size_t flat_len, size_t *first, size_t *second);

/* Finds the first row of a flat file that would fire on a marking. 1: first = the row, second = how many rows were tried.
 * 2: none would; first = how many were tried. 0: the file refusals, 12. */
uint8_t kwz_first_row(const uint8_t *flat, size_t flat_len, const uint16_t *marking, size_t marking_len, size_t *first, size_t *second);

/* Fires a list of images (0x61 and a row number as u32, little-endian) in turn on a marking, which it changes, and writes an answer
 * byte for each at the front of `answers`. 1: first = how many were answered. 0: the file refusals, 12, 13, 14. */
uint8_t kwz_fire_images(const uint8_t *flat, size_t flat_len, uint16_t *marking, size_t marking_len, const uint8_t *images,
                        size_t images_len, uint8_t *answers, size_t answers_len, size_t *first, size_t *second);

/* ---- net files, the drawings ---- */

/* Reads a net file. 1: first = flat places, second = transitions, third = bindings (guards not considered). 0: the file refusals. */
uint8_t kwz_net_sizes(const uint8_t *net, size_t net_len, size_t *first, size_t *second, size_t *third);

/* Unfolds a net file and writes its flat file at the front of `flat`. 1: first = its length in bytes. 0: the file refusals, 14. */
uint8_t kwz_unfold(const uint8_t *net, size_t net_len, uint8_t *flat, size_t flat_len, size_t *first, size_t *second);

/* Writes the image of each order of a list at the front of `images`, 5 bytes each; an order that names no binding, or one whose
 * guard is false, has row 4,294,967,295. 1: first = how many orders were answered. 0: the file refusals, 13, 14. */
uint8_t kwz_images(const uint8_t *net, size_t net_len, const uint8_t *orders, size_t orders_len, uint8_t *images, size_t images_len,
                   size_t *first, size_t *second);

/* Gives the order of a row of the net's flat file. 1: the six bytes of `order` are written. 2: there is no such row, and `order` is
 * as before. 0: the file refusals. */
uint8_t kwz_row_order(const uint8_t *net, size_t net_len, uint32_t row, uint8_t order[6], size_t *first, size_t *second);

/* Fires a list of orders (0x60, transition, four colours, unused ones 0) in turn on a marking, which it changes, and writes an answer
 * byte for each at the front of `answers`. 1: first = how many were answered. 0: the file refusals, 12, 13, 14. */
uint8_t kwz_fire_orders(const uint8_t *net, size_t net_len, uint16_t *marking, size_t marking_len, const uint8_t *orders,
                        size_t orders_len, uint8_t *answers, size_t answers_len, size_t *first, size_t *second);

/* Finds the first order that would fire on a marking. 1: the six bytes of `order` are written; first = how many bindings were tried,
 * those with a false guard included. 2: none would; first = how many were tried, and `order` is as before. 0: the file refusals, 12. */
uint8_t kwz_first_order(const uint8_t *net, size_t net_len, const uint16_t *marking, size_t marking_len, uint8_t order[6],
                        size_t *first, size_t *second);

#ifdef __cplusplus
}
#endif

#endif
