/* The two-gauge net: read, unfolded, and fired on the drawing and on the flat net side by side. */
#include <stdio.h>
#include <stdlib.h>
#include <string.h>

#include "kwezirambo.h"

/* One transition moves a token of some colour from place 0 to the next colour of place 1, unless two of its colour are there. */
static const uint8_t net[] = {
    0x01, 1,                                      /* net file, edition 1 */
    0x10, 2,                                      /* set 0 of two colours */
    0x11, 0,                                      /* variable 0, of set 0 */
    0x12, 0, 0x12, 0,                             /* places 0 and 1, of set 0: four flat places */
    0x14,                                         /* transition 0 */
    0x16, 0, 0x40, 1, 0, 0x30, 0,                 /* takes one of the variable's colour from place 0 */
    0x17, 1, 0x40, 1, 0, 0x32, 0x30, 0,           /* puts one of the next colour to place 1 */
    0x18, 1, 0x40, 2, 0, 0x30, 0,                 /* is hindered by two of the variable's colour on place 1 */
    0x19, 0, 0, 0, 3, 0,                          /* place 0 starts with three of colour 0 */
    0x1F                                          /* end */
};

/* Orders: 0x60, transition, four colours. Colour 0 four times, colour 1, and a colour that is not there. */
static const uint8_t orders[] = {
    0x60, 0, 0, 0, 0, 0, 0x60, 0, 0, 0, 0, 0, 0x60, 0, 0, 0, 0, 0, 0x60, 0, 0, 0, 0, 0, 0x60, 0, 1, 0, 0, 0, 0x60, 0, 2, 0, 0, 0};

enum { PLACES = 4, ORDERS = sizeof orders / 6 };

/* Ends the program where a call was refused. */
static void done(const char *call, uint8_t code, size_t first, size_t second)
{
    if (code == 0) {
        printf("%s: refused %zu at %zu\n", call, first, second);
        exit(1);
    }
}

static void bytes(const char *name, const uint8_t *list, size_t count)
{
    printf("%s", name);
    for (size_t i = 0; i < count; i++)
        printf(" %02x", list[i]);
    printf("\n");
}

static void counts(const char *name, const uint16_t *list, size_t count)
{
    printf("%s", name);
    for (size_t i = 0; i < count; i++)
        printf(" %u", list[i]);
    printf("\n");
}

int main(void)
{
    size_t places, transitions, bindings, length, rows, count, tried, none;
    uint8_t flat[64], images[5 * ORDERS], drawn[ORDERS], flown[ORDERS], order[6];
    uint16_t drawing[PLACES], flat_net[PLACES];

    uint8_t code = kwz_net_sizes(net, sizeof net, &places, &transitions, &bindings);
    done("kwz_net_sizes", code, places, transitions);
    printf("drawing: %zu flat places, %zu transition, %zu bindings\n", places, transitions, bindings);

    code = kwz_unfold(net, sizeof net, flat, sizeof flat, &length, &none);
    done("kwz_unfold", code, length, none);
    bytes("flat file:", flat, length);
    code = kwz_flat_sizes(flat, length, &places, &rows);
    done("kwz_flat_sizes", code, places, rows);
    printf("flat net: %zu flat places, %zu rows\n", places, rows);
    if (places != PLACES)
        return 1;

    /* The initial marking stands in the flat file: after its two opening bytes each flat place is 0x50 and a count, low byte first. */
    for (size_t i = 0; i < places; i++)
        drawing[i] = flat_net[i] = (uint16_t)(flat[2 + 3 * i + 1] + 256 * flat[2 + 3 * i + 2]);
    counts("initial marking:", drawing, places);

    code = kwz_first_order(net, sizeof net, drawing, places, order, &tried, &none);
    done("kwz_first_order", code, tried, none);
    if (code == 1)
        bytes("first order that would fire:", order, sizeof order);

    /* The same orders on both sides: as they are on the drawing, as images in the flat net. */
    code = kwz_images(net, sizeof net, orders, sizeof orders, images, sizeof images, &count, &none);
    done("kwz_images", code, count, none);
    bytes("orders: ", orders, sizeof orders);
    bytes("images: ", images, sizeof images);
    code = kwz_fire_orders(net, sizeof net, drawing, places, orders, sizeof orders, drawn, sizeof drawn, &count, &none);
    done("kwz_fire_orders", code, count, none);
    code = kwz_fire_images(flat, length, flat_net, places, images, sizeof images, flown, sizeof flown, &count, &none);
    done("kwz_fire_images", code, count, none);
    bytes("drawing's answers: ", drawn, count);
    bytes("flat net's answers:", flown, count);
    counts("drawing's marking: ", drawing, places);
    counts("flat net's marking:", flat_net, places);

    int same = memcmp(drawn, flown, sizeof drawn) == 0 && memcmp(drawing, flat_net, sizeof drawing) == 0;
    printf("%s\n", same ? "the same on both sides" : "NOT the same on both sides");
    return same ? 0 : 1;
}
