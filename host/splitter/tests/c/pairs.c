/* Calls each function for PairPos tables through splitter.h: in C, and in C++ too. */
#include "splitter.h"

#include "expect.h"

/* Three pair sets of 7,500 records, and exactly the room that a cut at 2 needs. */
enum { RECORDS = 7500, SET = 2 + 4 * RECORDS, USED = 26 + 3 * SET, ROOM = 26 };
enum { LINKS = 6, ALL_LINKS = LINKS + 1, LENT_LINKS = SPLITTER_LINK_NUMBERS * ALL_LINKS };

typedef struct {
    uint8_t *data;
    uint32_t objects[2 * 8];
    uint32_t links[LENT_LINKS];
    uint32_t counts[3];
} store;

/* Exactly enough for five objects, three glyphs and three sets, and what is not lent behind it. */
typedef struct {
    uint32_t walk[10];
    uint8_t glyph_set[SPLITTER_GLYPH_SET];
    uint16_t glyphs[3];
    uint16_t classes[3];
    uint16_t cuts[3];
    uint16_t behind;
} scratch;

/* A format 1 table with X advances, its coverage of glyphs 10, 20 and 30, and three sets, whose pairs with
 * glyphs 0, 1 and so on have an advance of minus the set's number. The table has order-only links to itself
 * and to its coverage. */
static void make(store *s) {
    static const uint16_t head[] = {1, 0, 4, 0, 3, 0, 0, 0, 1, 3, 10, 20, 30};
    static const uint32_t ends[] = {0, 16, 26, 26 + SET, 26 + 2 * SET, 26 + 3 * SET};
    s->data = (uint8_t *)calloc(USED + ROOM, 1);
    memset(s->objects, 0xA5, sizeof s->objects);
    memset(s->links, 0xA5, sizeof s->links);
    put(s->data, head, sizeof head / sizeof *head);
    for (uint32_t i = 0; i < 5; i++) {
        s->objects[2 * i] = ends[i];
        s->objects[2 * i + 1] = ends[i + 1];
    }
    uint32_t *links = offset(s->links, 0, 2, 1);
    for (uint32_t i = 0; i < 3; i++) {
        const uint16_t set_count = RECORDS;
        put(s->data + ends[i + 2], &set_count, 1);
        for (uint16_t second = 0; second < RECORDS; second++) {
            const uint16_t record[] = {second, (uint16_t)(0x10000 - i)};
            put(s->data + ends[i + 2] + 2 + 4 * second, record, 2);
        }
        links = offset(links, 0, 10 + 2 * i, i + 2);
    }
    order_only(order_only(links, 0, 0), 0, 1);
    s->counts[0] = USED;
    s->counts[1] = 5;
    s->counts[2] = LINKS;
}

static int is_zero(const scratch *s) {
    return all_zero(s, offsetof(scratch, behind)) && s->behind == 0xA5A5;
}

/* By which every call cuts. */
static uint32_t edition = SPLITTER_EDITION_1;

static uint32_t plan(const store *s, uint32_t table, scratch *w, uint16_t *places, size_t places_len, uint32_t *count) {
    memset(w, 0xA5, sizeof *w);
    return cut_plan(s->data, USED + ROOM, s->objects, 16, s->links, LENT_LINKS, s->counts, table, edition,
        w->walk, 10, w->glyph_set, SPLITTER_GLYPH_SET, w->glyphs, 3, w->classes, 3, w->cuts, 3,
        places, places_len, count);
}

static uint32_t split(store *s, uint32_t table, scratch *w, uint32_t *tables, size_t tables_len, uint32_t *count) {
    memset(w, 0xA5, sizeof *w);
    return split_pairpos(s->data, USED + ROOM, s->objects, 16, s->links, LENT_LINKS, s->counts, table, edition,
        w->walk, 10, w->glyph_set, SPLITTER_GLYPH_SET, w->glyphs, 3, w->classes, 3, w->cuts, 3,
        tables, tables_len, count);
}

static uint32_t pair(const store *s, uint32_t table, uint16_t first, int32_t values[16], uint32_t *found) {
    memset(values, 0xA5, 16 * sizeof *values);
    *found = 77;
    return read_pair(s->data, USED + ROOM, s->objects, 16, s->links, LENT_LINKS, s->counts, table, first, 70, values, found);
}

/* A pair reading of glyph 30: its one number, or nothing at all. */
static void expect_pair(const store *s, uint32_t table, int there) {
    int32_t values[16], expected[16] = {0};
    uint32_t found;
    expected[2] = there ? -2 : 0;
    EXPECT(pair(s, table, 30, values, &found) == SPLITTER_DONE);
    EXPECT(found == (uint32_t)there);
    EXPECT(memcmp(values, expected, sizeof values) == 0);
}

/* The kept table has its own new coverage, object 7, two sets, and its order-only links as they were. */
static void expect_links(const store *s) {
    uint32_t expected[LENT_LINKS];
    uint32_t *kept = offset(offset(offset(expected, 0, 2, 7), 0, 10, 2), 0, 12, 3);
    uint32_t *orders = order_only(order_only(kept, 0, 0), 0, 1);
    offset(offset(orders, 5, 2, 6), 5, 10, 4);
    EXPECT(memcmp(s->links, expected, sizeof expected) == 0);
}

static void a_split(void) {
    store s;
    scratch w;
    uint16_t places[2] = {77, 77};
    uint32_t tables[2] = {77, 77}, count = 77;
    make(&s);
    expect_pair(&s, 0, 1);

    EXPECT(plan(&s, 0, &w, places, 2, &count) == SPLITTER_DONE);
    EXPECT(count == 1 && places[0] == 2 && places[1] == 77 && is_zero(&w));
    EXPECT(split(&s, 0, &w, tables, 2, &count) == SPLITTER_DONE);
    EXPECT(count == 1 && tables[0] == 5 && tables[1] == 77 && is_zero(&w));

    static const uint16_t written[] = {1, 0, 4, 0, 1, 0, 1, 1, 30, 1, 2, 10, 20};
    uint8_t bytes[ROOM];
    put(bytes, written, ROOM / 2);
    EXPECT(memcmp(s.data + USED, bytes, ROOM) == 0);
    static const uint32_t counts[3] = {USED + ROOM, 8, ALL_LINKS};
    EXPECT(memcmp(s.counts, counts, sizeof counts) == 0);
    expect_links(&s);
    expect_pair(&s, 0, 0);
    expect_pair(&s, 5, 1);
    free(s.data);
}

static void refusals(void) {
    store s;
    scratch w;
    uint16_t place = 77;
    uint32_t table = 77, count = 77, found;
    int32_t values[16], zeros[16] = {0};
    make(&s);

    EXPECT(plan(&s, 0, &w, &place, 0, &count) == SPLITTER_NO_ROOM && count == 0 && is_zero(&w));
    count = 77;
    EXPECT(split(&s, 0, &w, &table, 0, &count) == SPLITTER_NO_ROOM && count == 0 && is_zero(&w));
    EXPECT(split(&s, 5, &w, &table, 1, &count) == SPLITTER_NO_TABLE && is_zero(&w));
    EXPECT(split(&s, 1, &w, &table, 1, &count) == SPLITTER_BAD_TABLE && is_zero(&w));
    EXPECT(pair(&s, 5, 30, values, &found) == SPLITTER_NO_TABLE && found == 0);
    EXPECT(memcmp(values, zeros, sizeof zeros) == 0);
    /* The second record of the last set has the glyph of the first. */
    s.data[26 + 2 * SET + 7] = 0;
    EXPECT(plan(&s, 0, &w, &place, 1, &count) == SPLITTER_UNSORTED_SETS && count == 0 && is_zero(&w));
    EXPECT(split(&s, 0, &w, &table, 1, &count) == SPLITTER_UNSORTED_SETS && count == 0 && is_zero(&w));
    EXPECT(pair(&s, 0, 10, values, &found) == SPLITTER_UNSORTED_SETS && found == 0);
    EXPECT(memcmp(values, zeros, sizeof zeros) == 0);
    s.counts[2] = ALL_LINKS;
    EXPECT(plan(&s, 0, &w, &place, 1, &count) == SPLITTER_UNSOUND && count == 0 && is_zero(&w));
    EXPECT(split(&s, 0, &w, &table, 1, &count) == SPLITTER_UNSOUND && count == 0 && is_zero(&w));
    EXPECT(place == 77 && table == 77);
    free(s.data);
}

/* Another edition is refused before all else. */
static void other_editions(void) {
    static const uint32_t others[] = {0, 3, UINT32_MAX};
    store s;
    scratch w;
    uint16_t place = 77;
    uint32_t table = 77, count;
    make(&s);
    s.counts[2] = UINT32_MAX;
    for (size_t i = 0; i < sizeof others / sizeof *others; i++) {
        edition = others[i];
        count = 77;
        EXPECT(plan(&s, 99, &w, &place, 0, &count) == SPLITTER_BAD_EDITION && count == 0 && is_zero(&w));
        count = 77;
        EXPECT(split(&s, 99, &w, &table, 0, &count) == SPLITTER_BAD_EDITION && count == 0 && is_zero(&w));
    }
    EXPECT(place == 77 && table == 77);
    edition = SPLITTER_EDITION_1;
    free(s.data);
}

/* Nothing is lent but the counts. */
static void null_pointers(void) {
    uint32_t counts[3] = {0, 0, 0}, count = 77, found = 77;
    int32_t values[16], zeros[16] = {0};
    EXPECT(split_pairpos(NULL, 0, NULL, 0, NULL, 0, counts, 0, edition, NULL, 0, NULL, 0, NULL, 0, NULL, 0,
        NULL, 0, NULL, 0, &count) == SPLITTER_NO_TABLE);
    EXPECT(count == 0);
    count = 77;
    EXPECT(cut_plan(NULL, 0, NULL, 0, NULL, 0, counts, 0, edition, NULL, 0, NULL, 0, NULL, 0, NULL, 0,
        NULL, 0, NULL, 0, &count) == SPLITTER_NO_TABLE);
    EXPECT(count == 0);
    EXPECT(read_pair(NULL, 0, NULL, 0, NULL, 0, counts, 0, 0, 0, values, &found) == SPLITTER_NO_TABLE);
    EXPECT(found == 0 && memcmp(values, zeros, sizeof zeros) == 0);
}

int main(void) {
    a_split();
    refusals();
    other_editions();
    null_pointers();
    edition = SPLITTER_EDITION_2;
    a_split();
    refusals();
    null_pointers();
    return failures == 0 ? EXIT_SUCCESS : EXIT_FAILURE;
}
