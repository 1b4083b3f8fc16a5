/* Compacts a store through splitter.h: in C, and in C++ too. */
#include "splitter.h"

#include "expect.h"

#if SPLITTER_INTERFACE != 3
#error "these calls are those of interface 3"
#endif

/* Three objects are kept, of 24 bytes in all, and room lies behind what is in use. */
enum { USED = 29, LENT = USED + 4, OBJECTS = 5, LENT_OBJECTS = 2 * (OBJECTS + 1) };
enum { LINKS = 6, LENT_LINKS = SPLITTER_LINK_NUMBERS * (LINKS + 1), KEPT = 24, KEPT_LINKS = 4 };

typedef struct {
    uint8_t data[LENT];
    uint32_t objects[LENT_OBJECTS];
    uint32_t links[LENT_LINKS];
    uint32_t counts[3];
} store;

/* Exactly enough for five objects, and what is not lent behind it. */
typedef struct {
    uint32_t walk[2 * OBJECTS];
    uint32_t behind;
} scratch;

/* Object 0 has three bytes that nothing needs. Table 1 has coverage 2, of glyph 10, and pair set 4, of glyph
 * 70, and object 3 lies between. Order-only links lead from the table to itself and to object 3, and from the
 * pair set to the coverage. */
static void make(store *s) {
    static const uint32_t ends[] = {0, 3, 15, 21, 23, USED};
    static const uint16_t table[] = {1, 0, 4, 0, 1, 0, 1, 1, 10, 0xFFFF, 1, 70, 5};
    memset(s, 0xA5, sizeof *s);
    put(s->data + 3, table, sizeof table / sizeof *table);
    for (uint32_t i = 0; i < OBJECTS; i++) {
        s->objects[2 * i] = ends[i];
        s->objects[2 * i + 1] = ends[i + 1];
    }
    uint32_t *links = offset(offset(s->links, 1, 2, 2), 1, 10, 4);
    links = order_only(order_only(links, 1, 1), 1, 3);
    order_only(offset(links, 3, 0, 1), 4, 2);
    s->counts[0] = USED;
    s->counts[1] = OBJECTS;
    s->counts[2] = LINKS;
}

static uint32_t call(store *s, uint32_t *roots, size_t roots_len, scratch *w, size_t walk_len, uint32_t *moved) {
    memset(w, 0xA5, sizeof *w);
    *moved = 77;
    return compact(s->data, LENT, s->objects, LENT_OBJECTS, s->links, LENT_LINKS, s->counts,
        roots, roots_len, w->walk, walk_len, moved);
}

static int is_zero(const scratch *w) {
    return all_zero(w, offsetof(scratch, behind)) && w->behind == 0xA5A5A5A5;
}

static int32_t advance(const store *s, uint32_t table) {
    int32_t values[16];
    uint32_t found;
    EXPECT(read_pair(s->data, LENT, s->objects, LENT_OBJECTS, s->links, LENT_LINKS, s->counts,
        table, 10, 70, values, &found) == SPLITTER_DONE);
    return found ? values[2] : -1;
}

static void expect_compacted(const store *s) {
    static const uint32_t objects[] = {0, 12, 12, 18, 18, KEPT};
    store old;
    uint32_t links[SPLITTER_LINK_NUMBERS * KEPT_LINKS];
    make(&old);
    EXPECT(s->counts[0] == KEPT && s->counts[1] == 3 && s->counts[2] == KEPT_LINKS);
    EXPECT(memcmp(s->data, old.data + 3, 18) == 0 && memcmp(s->data + 18, old.data + 23, 6) == 0);
    EXPECT(memcmp(s->objects, objects, sizeof objects) == 0);
    order_only(order_only(offset(offset(links, 0, 2, 1), 0, 10, 2), 0, 0), 2, 1);
    EXPECT(memcmp(s->links, links, sizeof links) == 0);
    /* Zero between the counts, and behind the old ones as it was. */
    EXPECT(all_zero(s->data + KEPT, USED - KEPT));
    EXPECT(memcmp(s->data + USED, old.data + USED, LENT - USED) == 0);
    EXPECT(all_zero(s->objects + 6, 4 * sizeof *s->objects) && s->objects[2 * OBJECTS] == 0xA5A5A5A5);
    EXPECT(all_zero(s->links + SPLITTER_LINK_NUMBERS * KEPT_LINKS, 2 * SPLITTER_LINK_NUMBERS * sizeof *s->links));
    EXPECT(s->links[SPLITTER_LINK_NUMBERS * LINKS] == 0xA5A5A5A5);
}

static void compacted(void) {
    store s;
    scratch w;
    uint32_t roots[2] = {1, 1}, moved;
    make(&s);
    EXPECT(advance(&s, 1) == 5);
    EXPECT(call(&s, roots, 2, &w, 2 * OBJECTS, &moved) == SPLITTER_DONE);
    EXPECT(roots[0] == 0 && roots[1] == 0 && moved == KEPT && is_zero(&w));
    expect_compacted(&s);
    EXPECT(advance(&s, 0) == 5);
    /* Again: nothing changes, and nothing moves. */
    EXPECT(call(&s, roots, 2, &w, 2 * 3, &moved) == SPLITTER_DONE);
    EXPECT(roots[0] == 0 && moved == 0);
    expect_compacted(&s);
}

/* Without a root nothing is left. */
static void emptied(void) {
    store s;
    scratch w;
    uint32_t moved;
    make(&s);
    EXPECT(call(&s, NULL, 0, &w, 2 * OBJECTS, &moved) == SPLITTER_DONE);
    EXPECT(moved == 0 && all_zero(s.counts, sizeof s.counts) && is_zero(&w));
    EXPECT(all_zero(s.data, USED) && s.data[USED] == 0xA5);
}

/* A root that is not in use, a walk that is one short, and both: nothing changes. */
static void refused(void) {
    store s, old;
    scratch w;
    uint32_t roots[2] = {1, OBJECTS}, moved;
    make(&s);
    make(&old);
    EXPECT(call(&s, roots, 2, &w, 2 * OBJECTS, &moved) == SPLITTER_NO_TABLE && moved == 0);
    EXPECT(is_zero(&w));
    EXPECT(call(&s, roots, 2, &w, 2 * OBJECTS - 1, &moved) == SPLITTER_NO_TABLE && moved == 0);
    EXPECT(call(&s, roots, 1, &w, 2 * OBJECTS - 1, &moved) == SPLITTER_SHORT_SCRATCH && moved == 0);
    EXPECT(roots[0] == 1 && roots[1] == OBJECTS && memcmp(&s, &old, sizeof s) == 0);
    s.counts[2] = LINKS + 2;
    EXPECT(call(&s, roots, 2, &w, 0, &moved) == SPLITTER_UNSOUND && moved == 0);
}

int main(void) {
    compacted();
    emptied();
    refused();
    return failures != 0;
}
