/* The exported calls, by hand: null pointers with length 0, every refusal with every lent byte as it was, the codes, and the stack
 * that each call takes. `stack` as a word prints the stack of each call. Exit code 1 where anything is not as it must be. */
#define _POSIX_C_SOURCE 200809L
#include <pthread.h>
#include <stdio.h>
#include <stdlib.h>
#include <string.h>

#include "kwezirambo.h"

enum call { FLAT_SIZES, FIRST_ROW, FIRE_IMAGES, NET_SIZES, UNFOLD, IMAGES, ROW_ORDER, FIRE_ORDERS, FIRST_ORDER, CALLS };
static const char *const names[] = {"flat_sizes", "first_row", "fire_images", "net_sizes", "unfold", "images", "row_order",
                                    "fire_orders", "first_order"};
enum { UNSET = 7777, STACK = 1 << 20 };

/* One call: what is lent to it, and what it gave back. */
struct made {
    enum call call;
    const uint8_t *file, *list;
    uint16_t *marking;
    uint8_t *out;
    size_t file_len, list_len, marking_len, out_len;
    uint32_t row;
    uint8_t order[6], code;
    size_t first, second, third;
};

static void *make(void *made)
{
    struct made *m = made;
    size_t *first = &m->first, *second = &m->second;
    m->first = m->second = m->third = UNSET;
    switch (m->call) {
    case FLAT_SIZES: m->code = kwz_flat_sizes(m->file, m->file_len, first, second); break;
    case FIRST_ROW: m->code = kwz_first_row(m->file, m->file_len, m->marking, m->marking_len, first, second); break;
    case FIRE_IMAGES:
        m->code = kwz_fire_images(m->file, m->file_len, m->marking, m->marking_len, m->list, m->list_len, m->out, m->out_len, first, second);
        break;
    case NET_SIZES: m->code = kwz_net_sizes(m->file, m->file_len, first, second, &m->third); break;
    case UNFOLD: m->code = kwz_unfold(m->file, m->file_len, m->out, m->out_len, first, second); break;
    case IMAGES: m->code = kwz_images(m->file, m->file_len, m->list, m->list_len, m->out, m->out_len, first, second); break;
    case ROW_ORDER: m->code = kwz_row_order(m->file, m->file_len, m->row, m->order, first, second); break;
    case FIRE_ORDERS:
        m->code = kwz_fire_orders(m->file, m->file_len, m->marking, m->marking_len, m->list, m->list_len, m->out, m->out_len, first, second);
        break;
    case FIRST_ORDER: m->code = kwz_first_order(m->file, m->file_len, m->marking, m->marking_len, m->order, first, second); break;
    case CALLS: break;
    }
    return NULL;
}

static int passed, failed;
static size_t deepest[CALLS + 1];

/* How far a painted stack was written, from its top. */
static size_t on_a_stack(struct made *m)
{
    static _Alignas(4096) uint8_t stack[STACK];
    pthread_attr_t attr;
    pthread_t thread;
    size_t free_bytes = 0;
    memset(stack, 0xA5, sizeof stack);
    pthread_attr_init(&attr);
    if (pthread_attr_setstack(&attr, stack, sizeof stack) || pthread_create(&thread, &attr, make, m)) {
        printf("no thread\n");
        exit(1);
    }
    pthread_join(thread, NULL);
    while (free_bytes < sizeof stack && stack[free_bytes] == 0xA5)
        free_bytes++;
    return sizeof stack - free_bytes;
}

/* Makes the call on a stack of 1 MiB, and holds what it gives back to what it must. */
static void expect(const char *what, struct made *m, uint8_t code, size_t first, size_t second, size_t third)
{
    size_t used = on_a_stack(m);
    if (deepest[m->call] < used)
        deepest[m->call] = used;
    if (m->code == code && m->first == first && m->second == second && m->third == (m->call == NET_SIZES ? third : UNSET)) {
        passed++;
        return;
    }
    failed++;
    printf("FAILED %s, %s: code %u, numbers %zu %zu %zu\n", names[m->call], what, m->code, m->first, m->second, m->third);
}

static void check(const char *what, int holds)
{
    holds ? passed++ : failed++;
    if (!holds)
        printf("FAILED %s\n", what);
}

static uint16_t marking[4096];
static uint8_t out[70000];

/* Lends a file, and lists full of a pattern. */
static struct made lend(enum call call, const uint8_t *file, size_t file_len, size_t marking_len, const uint8_t *list, size_t list_len,
                        size_t out_len)
{
    struct made m = {call, file, list, marking, out, file_len, list_len, marking_len, out_len, 0, {0}, 0, 0, 0, 0};
    memset(marking, 0x5A, sizeof marking);
    memset(out, 0x5A, sizeof out);
    memset(m.order, 0x5A, sizeof m.order);
    return m;
}

static int all(const void *list, size_t length)
{
    const uint8_t *bytes = list;
    for (size_t i = 0; i < length; i++)
        if (bytes[i] != 0x5A)
            return 0;
    return 1;
}

/* A refusal: its number and place, and nothing that was lent is changed. */
static void refuse(struct made m, size_t number, size_t place)
{
    char what[40];
    snprintf(what, sizeof what, "refusal %zu at %zu", number, place);
    expect(what, &m, 0, number, place, 0);
    snprintf(what, sizeof what, "%s wrote though refused %zu", names[m.call], number);
    check(what, all(marking, sizeof marking) && all(out, sizeof out) && all(m.order, sizeof m.order));
}

/* A file that each of some calls refuses. */
static void refuse_file(enum call from, enum call to, const uint8_t *file, size_t length, size_t number, size_t place)
{
    for (enum call call = from; call < to; call++)
        refuse(lend(call, file, length, 4, (const uint8_t *)"", 0, sizeof out), number, place);
}

#define BYTES(...) (const uint8_t[]){__VA_ARGS__}, sizeof((const uint8_t[]){__VA_ARGS__})
#define FLAT(number, place, ...) refuse_file(FLAT_SIZES, NET_SIZES, BYTES(__VA_ARGS__), number, place)
#define NET(number, place, ...) refuse_file(NET_SIZES, CALLS, BYTES(__VA_ARGS__), number, place)

static void file_refusals(void)
{
    static uint8_t long_net[16385], many[2 + 3 * 4097] = {2, 1};
    NET(2, 1, 0x01);
    NET(3, 0, 0x02);
    NET(5, 2, 1, 1, 0x10, 65);
    NET(4, 34, 1, 1, 0x10, 1, 0x10, 1, 0x10, 1, 0x10, 1, 0x10, 1, 0x10, 1, 0x10, 1, 0x10, 1, 0x10, 1, 0x10, 1, 0x10, 1, 0x10, 1, 0x10, 1,
        0x10, 1, 0x10, 1, 0x10, 1, 0x10, 1);
    NET(6, 13, 1, 1, 0x10, 2, 0x10, 2, 0x11, 0, 0x12, 1, 0x14, 0x16, 0, 0x40, 1, 0, 0x30, 0);
    NET(7, 20, 1, 1, 0x14, 0x15, 0x21, 0x21, 0x21, 0x21, 0x21, 0x21, 0x21, 0x21, 0x21, 0x21, 0x21, 0x21, 0x21, 0x21, 0x21, 0x21, 0x20);
    NET(8, 9, 1, 1, 0x10, 2, 0x12, 0, 0x14, 0x16, 0, 0x44, 0, 1, 0x41, 0, 1);
    NET(9, 12, 1, 1, 0x10, 2, 0x12, 0, 0x19, 0, 0, 0, 1, 0, 0x19, 0, 0, 0, 1, 0, 0x1F);
    NET(10, 14, 1, 1, 0x10, 2, 0x11, 0, 0x11, 0, 0x11, 0, 0x11, 0, 0x11, 0, 0x14, 0x15, 0x22, 0x24, 0x30, 0, 0x30, 1, 0x22, 0x24, 0x30, 2,
        0x30, 3, 0x24, 0x30, 4, 0x30, 4, 0x1F);
    NET(11, 12, 1, 1, 0x10, 64, 0x10, 17, 0x11, 0, 0x11, 0, 0x11, 1, 0x14, 0x15, 0x22, 0x24, 0x30, 0, 0x30, 1, 0x24, 0x30, 2, 0x30, 2, 0x1F);
    NET(15, 3, 1, 1, 0x1F, 0);
    refuse_file(NET_SIZES, CALLS, long_net, sizeof long_net, 1, 16384);
    FLAT(2, 1, 2);
    FLAT(3, 0, 1);
    FLAT(5, 6, 2, 1, 0x50, 0, 0, 0x51, 0x52, 0, 0, 0, 0, 0x5F);
    FLAT(9, 11, 2, 1, 0x50, 0, 0, 0x51, 0x52, 0, 0, 1, 0, 0x52, 0, 0, 1, 0, 0x5F);
    FLAT(15, 3, 2, 1, 0x5F, 0);
    for (size_t i = 0; i < 4097; i++)
        many[2 + 3 * i] = 0x50;
    refuse_file(FLAT_SIZES, NET_SIZES, many, sizeof many, 4, 2 + 3 * 4096);
}

static const uint8_t gauges[] = {1, 1, 0x10, 2, 0x11, 0, 0x12, 0, 0x12, 0, 0x14, 0x16, 0, 0x40, 1, 0, 0x30, 0, 0x17, 1, 0x40, 1, 0, 0x32, 0x30,
                                 0, 0x18, 1, 0x40, 2, 0, 0x30, 0, 0x19, 0, 0, 0, 3, 0, 0x1F};
static const uint8_t flat_gauges[] = {2, 1, 0x50, 3, 0, 0x50, 0, 0, 0x50, 0, 0, 0x50, 0, 0, 0x51, 0x52, 0, 0, 1, 0, 0x53, 3, 0, 1, 0, 0x54, 2, 0,
                                      2, 0, 0x51, 0x52, 1, 0, 1, 0, 0x53, 2, 0, 1, 0, 0x54, 3, 0, 2, 0, 0x5F};
static const uint8_t order_0[] = {0x60, 0, 0, 0, 0, 0}, order_1[] = {0x60, 0, 1, 0, 0, 0}, image_1[] = {0x61, 1, 0, 0, 0};

/* 12, 13 and 14, which every call gives at place 0 and in this order. */
static void list_refusals(void)
{
    refuse(lend(FIRST_ROW, flat_gauges, sizeof flat_gauges, 3, NULL, 0, 0), 12, 0);
    refuse(lend(FIRE_IMAGES, flat_gauges, sizeof flat_gauges, 5, image_1, 4, 0), 12, 0);
    refuse(lend(FIRE_IMAGES, flat_gauges, sizeof flat_gauges, 4, image_1, 4, 0), 13, 0);
    refuse(lend(FIRE_IMAGES, flat_gauges, sizeof flat_gauges, 4, image_1, 5, 0), 14, 0);
    refuse(lend(FIRST_ORDER, gauges, sizeof gauges, 3, NULL, 0, 0), 12, 0);
    refuse(lend(FIRE_ORDERS, gauges, sizeof gauges, 5, order_0, 5, 0), 12, 0);
    refuse(lend(FIRE_ORDERS, gauges, sizeof gauges, 4, order_0, 5, 0), 13, 0);
    refuse(lend(FIRE_ORDERS, gauges, sizeof gauges, 4, order_0, 6, 0), 14, 0);
    refuse(lend(IMAGES, gauges, sizeof gauges, 0, order_0, 5, 4), 13, 0);
    refuse(lend(IMAGES, gauges, sizeof gauges, 0, order_0, 6, 4), 14, 0);
    refuse(lend(UNFOLD, gauges, sizeof gauges, 0, NULL, 0, 46), 14, 0);
}

/* The same call with its empty lists lent as null pointers. */
static struct made null(struct made m)
{
    if (m.file_len == 0) m.file = NULL;
    if (m.list_len == 0) m.list = NULL;
    if (m.marking_len == 0) m.marking = NULL;
    if (m.out_len == 0) m.out = NULL;
    return m;
}

static void null_pointers(void)
{
    static const uint8_t bare_net[] = {1, 1, 0x14, 0x1F}, bare_flat[] = {2, 1, 0x51, 0x5F};
    struct made m;
    for (enum call call = FLAT_SIZES; call < CALLS; call++)
        refuse(null(lend(call, NULL, 0, 0, NULL, 0, 0)), 2, 0);
    refuse(null(lend(FIRST_ROW, flat_gauges, sizeof flat_gauges, 0, NULL, 0, 0)), 12, 0);
    refuse(null(lend(FIRE_IMAGES, flat_gauges, sizeof flat_gauges, 4, image_1, 5, 0)), 14, 0);
    refuse(null(lend(FIRST_ORDER, gauges, sizeof gauges, 0, NULL, 0, 0)), 12, 0);
    refuse(null(lend(FIRE_ORDERS, gauges, sizeof gauges, 4, order_0, 6, 0)), 14, 0);
    refuse(null(lend(IMAGES, gauges, sizeof gauges, 0, order_0, 6, 0)), 14, 0);
    refuse(null(lend(UNFOLD, gauges, sizeof gauges, 0, NULL, 0, 0)), 14, 0);
    m = null(lend(FIRST_ROW, bare_flat, sizeof bare_flat, 0, NULL, 0, 0));
    expect("null marking", &m, 1, 0, 1, 0);
    m = null(lend(FIRE_IMAGES, bare_flat, sizeof bare_flat, 0, NULL, 0, 0));
    expect("null marking, images, answers", &m, 1, 0, 0, 0);
    m = null(lend(FIRST_ORDER, bare_net, sizeof bare_net, 0, NULL, 0, 0));
    expect("null marking", &m, 1, 1, 0, 0);
    m = null(lend(FIRE_ORDERS, bare_net, sizeof bare_net, 0, NULL, 0, 0));
    expect("null marking, orders, answers", &m, 1, 0, 0, 0);
    m = null(lend(IMAGES, bare_net, sizeof bare_net, 0, NULL, 0, 0));
    expect("null orders, images", &m, 1, 0, 0, 0);
}

static void set(uint16_t a, uint16_t b, uint16_t c, uint16_t d)
{
    marking[0] = a, marking[1] = b, marking[2] = c, marking[3] = d;
}

static int is(uint16_t a, uint16_t b, uint16_t c, uint16_t d)
{
    return marking[0] == a && marking[1] == b && marking[2] == c && marking[3] == d && all(marking + 4, sizeof marking - 8);
}

/* The answers: codes, numbers, and what is written, with nothing past it. */
static void answers_given(void)
{
    struct made m = lend(FLAT_SIZES, flat_gauges, sizeof flat_gauges, 0, NULL, 0, 0);
    expect("sizes", &m, 1, 4, 2, 0);
    m = lend(NET_SIZES, gauges, sizeof gauges, 0, NULL, 0, 0);
    expect("sizes", &m, 1, 4, 1, 2);
    m = lend(UNFOLD, gauges, sizeof gauges, 0, NULL, 0, sizeof out);
    expect("unfolded", &m, 1, sizeof flat_gauges, 0, 0);
    check("the flat file", !memcmp(out, flat_gauges, sizeof flat_gauges) && all(out + 47, sizeof out - 47));
    m = lend(IMAGES, gauges, sizeof gauges, 0, order_1, 6, sizeof out);
    expect("imaged", &m, 1, 1, 0, 0);
    check("the image", !memcmp(out, image_1, 5) && all(out + 5, sizeof out - 5));
    m = lend(ROW_ORDER, gauges, sizeof gauges, 0, NULL, 0, 0);
    m.row = 1;
    expect("row 1", &m, 1, 0, 0, 0);
    check("the order of row 1", !memcmp(m.order, order_1, 6));
    m = lend(ROW_ORDER, gauges, sizeof gauges, 0, NULL, 0, 0);
    m.row = 2;
    expect("row 2", &m, 2, 0, 0, 0);
    check("no order of row 2", all(m.order, 6));
}

static void fired(void)
{
    struct made m = lend(FIRE_IMAGES, flat_gauges, sizeof flat_gauges, 4, image_1, 5, 9);
    set(0, 1, 0, 1);
    expect("fired", &m, 1, 1, 0, 0);
    check("flat marking and answer", is(0, 0, 1, 1) && out[0] == 0 && all(out + 1, sizeof out - 1));
    m = lend(FIRE_ORDERS, gauges, sizeof gauges, 4, order_1, 6, 9);
    set(0, 1, 0, 2);
    expect("hindered", &m, 1, 1, 0, 0);
    check("drawing's marking and answer", is(0, 1, 0, 2) && out[0] == 4 && all(out + 1, sizeof out - 1));
    m = lend(FIRST_ROW, flat_gauges, sizeof flat_gauges, 4, NULL, 0, 0);
    set(0, 1, 0, 0);
    expect("row 1", &m, 1, 1, 2, 0);
    set(0, 0, 0, 0);
    expect("no row", &m, 2, 2, 0, 0);
    m = lend(FIRST_ORDER, gauges, sizeof gauges, 4, NULL, 0, 0);
    set(0, 0, 0, 0);
    expect("no order", &m, 2, 2, 0, 0);
    check("no order written", all(m.order, 6));
    set(0, 1, 0, 0);
    expect("order 1", &m, 1, 2, 0, 0);
    check("the first order", !memcmp(m.order, order_1, 6));
}

/* A net whose guard and arc expressions nest to level 16, so that the recursion goes as deep as it can. */
static size_t deep_net(uint8_t *net)
{
    static const uint8_t head[] = {1, 1, 0x10, 2, 0x11, 0, 0x12, 0, 0x14, 0x15}, leaf[] = {0x40, 1, 0, 0x32, 0x30, 0};
    static const uint8_t equal[] = {0x24, 0x32, 0x32, 0x30, 0, 0x32, 0x32, 0x30, 0};
    size_t n = sizeof head;
    memcpy(net, head, n);
    for (int i = 0; i < 12; i++)
        net[n++] = 0x21;
    memcpy(net + n, equal, sizeof equal);
    n += sizeof equal;
    for (uint8_t kind = 0x16; kind <= 0x18; kind++) {
        net[n++] = kind;
        net[n++] = 0;
        for (int i = 0; i < 13; i++)
            net[n++] = 0x42;
        for (int i = 0; i < 14; i++, n += sizeof leaf)
            memcpy(net + n, leaf, sizeof leaf);
    }
    net[n++] = 0x1F;
    return n;
}

static void deep_calls(void)
{
    static uint8_t net[512];
    size_t length = deep_net(net);
    for (enum call call = NET_SIZES; call < CALLS; call++) {
        struct made m = lend(call, net, length, 2, order_0, 6, sizeof out);
        size_t used = on_a_stack(&m);
        if (deepest[call] < used)
            deepest[call] = used;
        check("a net of level 16 is read", m.code != 0);
    }
}

int main(int count, char **words)
{
    struct made nothing = lend(CALLS, NULL, 0, 0, NULL, 0, 0);
    size_t thread = on_a_stack(&nothing);
    file_refusals();
    list_refusals();
    null_pointers();
    answers_given();
    fired();
    deep_calls();
    for (enum call call = FLAT_SIZES; call < CALLS && count > 1 && !strcmp(words[1], "stack"); call++)
        printf("stack of %-11s %7zu bytes\n", names[call], deepest[call] - thread);
    printf("%d passed, %d failed\n", passed, failed);
    return failed ? 1 : 0;
}
