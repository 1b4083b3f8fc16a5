/* Calls each function for MarkBasePos tables through splitter.h: in C, and in C++ too. */
#include "splitter.h"

#include "expect.h"

#if SPLITTER_INTERFACE != 3
#error "these calls are those of interface 3"
#endif

/* Two classes, each with an anchor of 40,000 bytes on the one base, and exactly the room that a cut at 1
 * needs: 7 objects, 4 links and those of both arrays. */
enum { ANCHOR = 40000, HEADS = 12 + 8 + 6 + 10 + 6 + 6, USED = HEADS + 2 * ANCHOR, ROOM = 12 + 2 * (6 + 6 + 4) };
enum { OBJECTS = 8, LINKS = 9, ALL_OBJECTS = OBJECTS + 7, ALL_LINKS = LINKS + 4 + 4 };
enum { LENT_LINKS = SPLITTER_LINK_NUMBERS * ALL_LINKS };

typedef struct {
    uint8_t *data;
    uint32_t objects[2 * ALL_OBJECTS];
    uint32_t links[LENT_LINKS];
    uint32_t counts[3];
} store;

/* Exactly enough for eight objects, two marks and two classes, and what is not lent behind it. */
typedef struct {
    uint32_t walk[2 * OBJECTS];
    uint8_t glyph_set[SPLITTER_GLYPH_SET];
    uint16_t glyphs[2];
    uint16_t classes[2];
    uint16_t cuts[2];
    uint16_t behind;
} scratch;

/* Table, coverage of marks 10 and 20, coverage of base 60, marks of classes 1 and 0, base array, and the
 * anchor that both marks have, object 5. The anchors of the base are objects 6 and 7. An order-only link
 * leads from the mark array back to the table. */
static void make(store *s) {
    static const uint16_t heads[] = {1, 0, 0, 2, 0, 0, 1, 2, 10, 20, 1, 1, 60, 2, 1, 0, 0, 0, 1, 0, 0, 1, 5, 6};
    static const uint32_t ends[] = {0, 12, 20, 26, 36, 42, HEADS, HEADS + ANCHOR, USED};
    s->data = (uint8_t *)calloc(USED + ROOM, 1);
    memset(s->objects, 0xA5, sizeof s->objects);
    memset(s->links, 0xA5, sizeof s->links);
    put(s->data, heads, sizeof heads / sizeof *heads);
    for (uint32_t i = 0; i < OBJECTS; i++) {
        s->objects[2 * i] = ends[i];
        s->objects[2 * i + 1] = ends[i + 1];
    }
    uint32_t *links = offset(offset(offset(offset(s->links, 0, 2, 1), 0, 4, 2), 0, 8, 3), 0, 10, 4);
    links = order_only(offset(offset(links, 3, 4, 5), 3, 8, 5), 3, 0);
    offset(offset(links, 4, 2, 6), 4, 4, 7);
    s->counts[0] = USED;
    s->counts[1] = OBJECTS;
    s->counts[2] = LINKS;
}

static int is_zero(const scratch *s) {
    return all_zero(s, offsetof(scratch, behind)) && s->behind == 0xA5A5;
}

/* By which every call cuts. */
static uint32_t edition = SPLITTER_EDITION_1;

static uint32_t plan(const store *s, uint32_t table, scratch *w, uint16_t *places, size_t places_len, uint32_t *count) {
    memset(w, 0xA5, sizeof *w);
    return cut_plan_markbasepos(s->data, USED + ROOM, s->objects, 2 * ALL_OBJECTS, s->links, LENT_LINKS, s->counts, table, edition,
        w->walk, 2 * OBJECTS, w->glyph_set, SPLITTER_GLYPH_SET, w->glyphs, 2, w->classes, 2, w->cuts, 2,
        places, places_len, count);
}

static uint32_t split(store *s, uint32_t table, scratch *w, uint32_t *tables, size_t tables_len, uint32_t *count) {
    memset(w, 0xA5, sizeof *w);
    return split_markbasepos(s->data, USED + ROOM, s->objects, 2 * ALL_OBJECTS, s->links, LENT_LINKS, s->counts, table, edition,
        w->walk, 2 * OBJECTS, w->glyph_set, SPLITTER_GLYPH_SET, w->glyphs, 2, w->classes, 2, w->cuts, 2,
        tables, tables_len, count);
}

static uint32_t attachment(const store *s, uint32_t table, uint16_t mark, uint32_t anchors[2], uint32_t *found) {
    anchors[0] = anchors[1] = *found = 77;
    return read_mark(s->data, USED + ROOM, s->objects, 2 * ALL_OBJECTS, s->links, LENT_LINKS, s->counts, table,
        mark, 60, anchors, found);
}

/* An attachment of mark 10, which is of class 1: its two anchors, or nothing at all. */
static void expect_attachment(const store *s, uint32_t table, int there) {
    uint32_t anchors[2], found;
    EXPECT(attachment(s, table, 10, anchors, &found) == SPLITTER_DONE);
    EXPECT(found == (uint32_t)there);
    EXPECT(anchors[0] == (there ? 6u : 0u) && anchors[1] == (there ? 8u : 0u));
}

static void a_split(void) {
    store s;
    scratch w;
    uint16_t places[2] = {77, 77};
    uint32_t tables[2] = {77, 77}, count = 77;
    make(&s);
    expect_attachment(&s, 0, 1);

    EXPECT(plan(&s, 0, &w, places, 2, &count) == SPLITTER_DONE);
    EXPECT(count == 1 && places[0] == 1 && places[1] == 77 && is_zero(&w));
    EXPECT(split(&s, 0, &w, tables, 2, &count) == SPLITTER_DONE);
    EXPECT(count == 1 && tables[0] == 8 && tables[1] == 77 && is_zero(&w));

    static const uint16_t written[] = {1, 0, 0, 1, 0, 0, 1, 1, 10, 1, 0, 0, 1, 0, 1, 1, 20, 1, 0, 0, 1, 0};
    uint8_t bytes[ROOM];
    EXPECT(sizeof written == ROOM);
    put(bytes, written, ROOM / 2);
    EXPECT(memcmp(s.data + USED, bytes, ROOM) == 0);
    static const uint32_t counts[3] = {USED + ROOM, ALL_OBJECTS, ALL_LINKS};
    EXPECT(memcmp(s.counts, counts, sizeof counts) == 0);
    expect_attachment(&s, 0, 0);
    expect_attachment(&s, 8, 1);
    free(s.data);
}

static void refusals(void) {
    store s;
    scratch w;
    uint16_t place = 77;
    uint32_t table = 77, count = 77, anchors[2], found;
    make(&s);

    EXPECT(plan(&s, 0, &w, &place, 0, &count) == SPLITTER_NO_ROOM && count == 0 && is_zero(&w));
    count = 77;
    EXPECT(split(&s, 0, &w, &table, 0, &count) == SPLITTER_NO_ROOM && count == 0 && is_zero(&w));
    EXPECT(split(&s, OBJECTS, &w, &table, 1, &count) == SPLITTER_NO_TABLE && is_zero(&w));
    EXPECT(split(&s, 5, &w, &table, 1, &count) == SPLITTER_BAD_TABLE && is_zero(&w));
    EXPECT(attachment(&s, OBJECTS, 10, anchors, &found) == SPLITTER_NO_TABLE);
    EXPECT(found == 0 && anchors[0] == 0 && anchors[1] == 0);
    /* A mark's class is the class count. */
    s.data[29] = 2;
    EXPECT(attachment(&s, 0, 10, anchors, &found) == SPLITTER_BAD_PARTS && found == 0 && anchors[0] == 0);
    EXPECT(split(&s, 0, &w, &table, 1, &count) == SPLITTER_BAD_PARTS && count == 0 && is_zero(&w));
    s.counts[2] = LINKS + 1;
    EXPECT(plan(&s, 0, &w, &place, 1, &count) == SPLITTER_UNSOUND && count == 0 && is_zero(&w));
    EXPECT(place == 77 && table == 77);
    free(s.data);
}

/* Another edition is refused before all else. */
static void other_editions(void) {
    static const uint32_t others[] = {0, 3, UINT32_MAX};
    store s;
    scratch w;
    uint16_t place = 77;
    uint32_t table = 77, count;
    make(&s);
    s.counts[2] = UINT32_MAX;
    for (size_t i = 0; i < sizeof others / sizeof *others; i++) {
        edition = others[i];
        count = 77;
        EXPECT(plan(&s, 99, &w, &place, 0, &count) == SPLITTER_BAD_EDITION && count == 0 && is_zero(&w));
        count = 77;
        EXPECT(split(&s, 99, &w, &table, 0, &count) == SPLITTER_BAD_EDITION && count == 0 && is_zero(&w));
    }
    EXPECT(place == 77 && table == 77);
    edition = SPLITTER_EDITION_1;
    free(s.data);
}

/* Nothing is lent but the counts. */
static void null_pointers(void) {
    uint32_t counts[3] = {0, 0, 0}, count = 77, found = 77, anchors[2] = {77, 77};
    EXPECT(split_markbasepos(NULL, 0, NULL, 0, NULL, 0, counts, 0, edition, NULL, 0, NULL, 0, NULL, 0, NULL, 0,
        NULL, 0, NULL, 0, &count) == SPLITTER_NO_TABLE);
    EXPECT(count == 0);
    count = 77;
    EXPECT(cut_plan_markbasepos(NULL, 0, NULL, 0, NULL, 0, counts, 0, edition, NULL, 0, NULL, 0, NULL, 0, NULL, 0,
        NULL, 0, NULL, 0, &count) == SPLITTER_NO_TABLE);
    EXPECT(count == 0);
    EXPECT(read_mark(NULL, 0, NULL, 0, NULL, 0, counts, 0, 0, 0, anchors, &found) == SPLITTER_NO_TABLE);
    EXPECT(found == 0 && anchors[0] == 0 && anchors[1] == 0);
}

int main(void) {
    a_split();
    refusals();
    other_editions();
    null_pointers();
    edition = SPLITTER_EDITION_2;
    a_split();
    refusals();
    null_pointers();
    return failures == 0 ? EXIT_SUCCESS : EXIT_FAILURE;
}
