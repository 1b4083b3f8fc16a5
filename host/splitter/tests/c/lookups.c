/* Enters new tables in a lookup through splitter.h: in C, and in C++ too. */
#include "splitter.h"

#include "expect.h"

/* Three pair sets of 7,500 records with X advances, a list and a lookup, and exactly the room that a cut at 2
 * needs: 26 bytes for the split, and the lookup's 12 with 2 more for each of its two listings. */
enum { RECORDS = 7500, SET = 2 + 4 * RECORDS, SETS = 26, LIST = SETS + 3 * SET, USED = LIST + 4 + 12, ROOM = 26 + 16 };
enum { LINKS = 10, ALL_LINKS = LINKS + 1 + 4, LENT_LINKS = SPLITTER_LINK_NUMBERS * ALL_LINKS };

typedef struct {
    uint8_t *data;
    uint32_t objects[2 * 11];
    uint32_t links[LENT_LINKS];
    uint32_t counts[3];
} store;

/* Exactly enough for seven objects, three glyphs and three sets, and what is not lent behind it. */
typedef struct {
    uint32_t walk[14];
    uint8_t glyph_set[SPLITTER_GLYPH_SET];
    uint16_t glyphs[3];
    uint16_t classes[3];
    uint16_t cuts[3];
    uint16_t behind;
} scratch;

/* Table 0, its coverage of glyphs 10, 20 and 30, the sets, of which each record has the set's number, list 5
 * and lookup 6, which lists the table, nothing, and the table again. Order-only links lead from the coverage,
 * and from the lookup, to the lookup, and from the lookup to the coverage. */
static void make(store *s) {
    static const uint16_t head[] = {1, 0, 4, 0, 3, 0, 0, 0, 1, 3, 10, 20, 30};
    static const uint16_t list[] = {1, 0, 2, 0, 3, 0, 0, 0};
    static const uint32_t ends[] = {0, 16, 26, 26 + SET, 26 + 2 * SET, LIST, LIST + 4, USED};
    s->data = (uint8_t *)calloc(USED + ROOM, 1);
    memset(s->objects, 0xA5, sizeof s->objects);
    memset(s->links, 0xA5, sizeof s->links);
    put(s->data, head, sizeof head / sizeof *head);
    put(s->data + LIST, list, sizeof list / sizeof *list);
    for (uint32_t i = 0; i < 7; i++) {
        s->objects[2 * i] = ends[i];
        s->objects[2 * i + 1] = ends[i + 1];
    }
    uint32_t *links = offset(s->links, 0, 2, 1);
    for (uint32_t i = 0; i < 3; i++) {
        const uint16_t count = RECORDS;
        put(s->data + ends[i + 2], &count, 1);
        for (uint16_t second = 0; second < RECORDS; second++) {
            const uint16_t record[] = {second, (uint16_t)(i + 1)};
            put(s->data + ends[i + 2] + 2 + 4 * second, record, 2);
        }
        links = offset(links, 0, 10 + 2 * i, i + 2);
    }
    links = offset(order_only(links, 1, 6), 5, 2, 6);
    links = offset(offset(links, 6, 6, 0), 6, 10, 0);
    order_only(order_only(links, 6, 1), 6, 6);
    s->counts[0] = USED;
    s->counts[1] = 7;
    s->counts[2] = LINKS;
}

/* By which every call cuts. */
static uint32_t edition = SPLITTER_EDITION_1;

static uint32_t split(store *s, size_t data_len, uint32_t list, uint32_t table, scratch *w, uint32_t *tables, uint32_t *count) {
    memset(w, 0xA5, sizeof *w);
    return split_in_lookups(s->data, data_len, s->objects, 22, s->links, LENT_LINKS, s->counts, list, table, edition,
        w->walk, 14, w->glyph_set, SPLITTER_GLYPH_SET, w->glyphs, 3, w->classes, 3, w->cuts, 3,
        tables, 1, count);
}

/* The new lookup has no order-only link, and those to the old one lead to it. */
static void expect_links(const store *s) {
    uint32_t expected[LENT_LINKS];
    uint32_t *links = offset(offset(offset(expected, 0, 2, 9), 0, 10, 2), 0, 12, 3);
    links = offset(order_only(links, 1, 10), 5, 2, 10);
    links = order_only(order_only(offset(offset(links, 6, 6, 0), 6, 10, 0), 6, 1), 6, 10);
    links = offset(offset(links, 7, 2, 8), 7, 10, 4);
    offset(offset(offset(offset(links, 10, 6, 0), 10, 8, 7), 10, 12, 0), 10, 14, 7);
    EXPECT(memcmp(s->links, expected, sizeof expected) == 0);
}

/* The new table is object 7, and the new lookup object 10, behind the two coverages. */
static void expect_entered(const store *s, const scratch *w) {
    static const uint16_t lookup[] = {2, 0, 5, 0, 0, 0, 0, 0};
    uint8_t expected[sizeof lookup];
    put(expected, lookup, sizeof lookup / sizeof *lookup);
    EXPECT(all_zero(w, offsetof(scratch, behind)) && w->behind == 0xA5A5);
    EXPECT(s->counts[0] == USED + ROOM && s->counts[1] == 11 && s->counts[2] == ALL_LINKS);
    EXPECT(memcmp(s->data + s->objects[20], expected, sizeof expected) == 0);
    expect_links(s);
}

static void entered(void) {
    store s;
    static scratch w;
    uint32_t tables[1] = {77}, count = 77;
    make(&s);
    EXPECT(split(&s, USED + ROOM, 99, 0, &w, tables, &count) == SPLITTER_NO_TABLE);
    EXPECT(split(&s, USED + ROOM, 6, 0, &w, tables, &count) == SPLITTER_BAD_LIST);
    EXPECT(split(&s, USED + ROOM, 5, 1, &w, tables, &count) == SPLITTER_BAD_LIST);
    EXPECT(split(&s, USED + ROOM - 1, 5, 0, &w, tables, &count) == SPLITTER_NO_ROOM);
    EXPECT(count == 0 && tables[0] == 77 && s.counts[1] == 7);
    EXPECT(split(&s, USED + ROOM, 5, 0, &w, tables, &count) == SPLITTER_DONE);
    EXPECT(count == 1 && tables[0] == 7);
    expect_entered(&s, &w);
    free(s.data);
}

/* Another edition is refused before all else. */
static void other_editions(void) {
    static const uint32_t others[] = {0, 3, UINT32_MAX};
    store s;
    static scratch w;
    uint32_t tables[1] = {77}, count = 77;
    make(&s);
    for (size_t i = 0; i < sizeof others / sizeof *others; i++) {
        edition = others[i];
        EXPECT(split(&s, 0, 99, 99, &w, tables, &count) == SPLITTER_BAD_EDITION);
        EXPECT(count == 0 && tables[0] == 77 && s.counts[1] == 7);
        EXPECT(all_zero(&w, offsetof(scratch, behind)) && w.behind == 0xA5A5);
    }
    free(s.data);
}

int main(void) {
    entered();
    other_editions();
    edition = SPLITTER_EDITION_2;
    entered();
    return failures != 0;
}
