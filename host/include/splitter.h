/* The proved splitter of PairPos and MarkBasePos tables, for hosts in C and C++ on x86-64 Linux.
 *
 * A table that is too large is cut into several that fit: for which the rule counts at most 65,535
 * bytes, of the table, all that its items lead to, each object once, and its coverage and class
 * definitions, of which in PairPos format 2 the largest is left out. It is a count and no layout. An item
 * that is too large by itself stays so.
 *
 * The archive to link is libsplitter.a of a release folder; or `rt lib`, in the folder crates/splitter_c of
 * the repository, proves the functions and writes it, as out/libsplitter_c.a. It needs nothing else,
 * allocates nothing, keeps nothing between calls, and may be called from any thread.
 *
 * The object store
 *   data     the bytes of all objects
 *   objects  rows of two numbers: where an object's bytes start, and where they end
 *   links    rows of five numbers: parent, position in the parent, width, child, kind;
 *            they ascend by parent, kind, position and child
 *   counts   how many data bytes, object rows and link rows are in use
 * What the buffers have beyond the counts is room for a split, and compact makes more of it. A length is in elements, not in rows
 * or bytes; a part of a row at the end of a buffer is no row.
 *
 * Links
 *   A link is of one of two kinds.
 *     0  an offset: the two bytes of the parent at the position are the offset of the child. Its width is
 *        2, it lies within its parent, and no other offset of that parent stands at its position.
 *     1  order-only: it says in which order parent and child are placed, which may be one object. Its
 *        position and its width are 0.
 *   So the offsets of an object stand before its order-only links. Wherever a link is followed, asked,
 *   counted or copied it is an offset. Order-only links stay as they are, those of a split table with the
 *   kept one, and new objects have none.
 *
 * What is lent
 *   Each pointer leads to as many elements as the length behind it says, all of them initialised and
 *   aligned as C aligns them. No two buffers overlap, except where both are only read. A buffer of
 *   length 0 may be a null pointer. The contents may be anything: no input is an error of the caller,
 *   and each has its answer.
 *
 * Editions
 *   The rule that says where a table is cut has two editions, and every call that cuts takes the number of
 *   one, directly behind the table's.
 *     1  the cuts of the crate skera 0.6.0, for fonts that are fielded and have to stay as they are. The
 *        item at a cut costs what was measured before the cut, so what it shares with those before it is
 *        not counted for the new table; an empty pair set slot costs nothing, and is no place for a cut;
 *        item 0 is cut off if it is too large by itself.
 *     2  the item at a cut is measured again, an empty slot costs its 2 bytes and its 2 of coverage and is
 *        tested as any other, and there is never a cut at item 0. Each table of two or more items that a
 *        split leaves is within the limit, and no table that it leaves is cut again. New hosts want this
 *        one.
 *   In both, the tables of a split say what the old table said, and splitting the kept one again under the
 *   same edition changes nothing.
 *
 * What is left to the host
 *   The lookup must list the new tables directly behind the old one, in order: split_in_lookups sees to
 *   that, of PairPos tables in lookups that are objects of the store too. In PairPos format 2 the
 *   largest of the coverage and the two class definitions is packed last: in order of object numbers a
 *   table can overflow (400 rows of 101 records with a class definition 2 of 3,006 bytes have a
 *   greatest offset of 67,732 by number, and of 65,482 in link order). Tables that each fit may together
 *   be too far from their lookup, and usually want extension lookups. What they share may have to be
 *   there more than once. The old coverage, class definition 1 or arrays stay, and may be left with
 *   nothing that leads to them; order-only links to them still lead there. compact drops such objects.
 *
 * Answers
 *   Each function returns one of the numbers below, the first that applies. Where it is not
 *   SPLITTER_DONE nothing has changed but the scratch and the outputs that the function names. What is
 *   at fault the command `splitter plan` says, of the store in a file (docs/STORE_FILE.md).
 *
 * Cost
 *   Every call looks at the whole store first. A reading costs as much as the store is large. */
#ifndef SPLITTER_H
#define SPLITTER_H

#include <stddef.h>
#include <stdint.h>

/* The version of this interface. It grows where the parameters of a function change, or the numbers of a
 * row; a function more changes none. With 2 came the edition, with 3 the kind of a link. */
#define SPLITTER_INTERFACE 3

#ifdef __cplusplus
extern "C" {
#endif

/* The editions of the rule. */
enum {
    SPLITTER_EDITION_1 = 1,
    SPLITTER_EDITION_2 = 2
};

/* How many numbers a link row has, and the kinds of links. */
enum {
    SPLITTER_LINK_NUMBERS = 5,
    SPLITTER_OFFSET = 0,
    SPLITTER_ORDER_ONLY = 1
};

enum {
    /* it is done, or there is nothing to do */
    SPLITTER_DONE = 0,
    /* the store is not sound: counts past the buffers or the maxima, an object out of order or past
     * the data in use, a link out of order, of another kind or width, not within its parent, at the
     * position of another, or to an object that is not in use */
    SPLITTER_UNSOUND = 1,
    /* the table's number is not in use, or the lookup list's or a root's is not */
    SPLITTER_NO_TABLE = 2,
    /* the table has under 2 bytes, or not exactly 10 + 2 for each pair set (PairPos format 1),
     * 16 + all class records (PairPos format 2), or 12 (MarkBasePos) */
    SPLITTER_BAD_TABLE = 3,
    /* a coverage, a class definition, or the mark or base array is not linked, or cannot be read; or
     * a mark's class is not below the class count */
    SPLITTER_BAD_PARTS = 4,
    /* PairPos format 1: the coverage has fewer glyphs than the table has pair sets; MarkBasePos: the
     * mark coverage has fewer glyphs than the mark array has marks */
    SPLITTER_FEW_GLYPHS = 5,
    /* a scratch buffer is too short */
    SPLITTER_SHORT_SCRATCH = 6,
    /* a link of the table, or of its mark or base array, stands at no slot, or the table can be
     * reached from itself */
    SPLITTER_BAD_LINKS = 7,
    /* there is no room: data, objects, links or the list that takes the result */
    SPLITTER_NO_ROOM = 8,
    /* the lookup list or a lookup of it has not exactly its length (2 + 2 for each lookup; 6 + 2 for each
     * subtable, and 2 more with a mark filtering set) or has a link at no slot, or no lookup of type 2
     * names the table; asked directly behind SPLITTER_NO_TABLE */
    SPLITTER_BAD_LIST = 9,
    /* a lookup would have more than 65,535 subtables; asked directly before SPLITTER_NO_ROOM */
    SPLITTER_MANY_SUBTABLES = 10,
    /* PairPos format 1: a linked pair set has not exactly the length that its count asks for, or its second
     * glyphs do not ascend; asked directly behind SPLITTER_BAD_LINKS, in a reading last */
    SPLITTER_UNSORTED_SETS = 11,
    /* the edition is not 1 or 2; asked before all others */
    SPLITTER_BAD_EDITION = 12
};

/* The most that a store has in use. Room beyond is not used. */
enum {
    SPLITTER_MOST_DATA = 16777216,
    SPLITTER_MOST_OBJECTS = 65536,
    SPLITTER_MOST_LINKS = 262144
};

/* Scratch lengths that are enough for any table. Exactly enough: for walk two numbers for each object
 * in use, for glyphs and classes one entry for each covered glyph (MarkBasePos: each glyph of the mark
 * coverage), for cuts one entry for each pair set, row or mark class. Shorter scratch is cleared sooner. */
enum {
    SPLITTER_WALK = 131072,
    SPLITTER_GLYPH_SET = 8192,
    SPLITTER_GLYPHS = 65536,
    SPLITTER_CLASSES = 65536,
    SPLITTER_CUTS = 65535
};

/* Splits a PairPos table at the cut places of an edition of the rule.
 *
 * The table keeps its number and the items before the first cut; each cut starts a new table.
 * new_tables takes their numbers in order, from its first entry on, and *new_count becomes how many
 * there are. With no cut, with a format other than 1 and 2, and where it is refused,
 * *new_count becomes 0 and store, counts and new_tables stay as they were.
 *
 * Of K cuts, K above 0, format 1 needs room for 2K + 1 objects and K links, format 2 for 3K + 2
 * objects and 3K links, both for K entries of new_tables and for the bytes of all new objects.
 *
 * walk, glyph_set, glyphs, classes and cuts are scratch: zero after every call, all of it. */
uint32_t split_pairpos(
    uint8_t *data, size_t data_len,
    uint32_t *objects, size_t objects_len,
    uint32_t *links, size_t links_len,
    uint32_t counts[3],
    uint32_t table,
    uint32_t edition,
    uint32_t *walk, size_t walk_len,
    uint8_t *glyph_set, size_t glyph_set_len,
    uint16_t *glyphs, size_t glyphs_len,
    uint16_t *classes, size_t classes_len,
    uint16_t *cuts, size_t cuts_len,
    uint32_t *new_tables, size_t new_tables_len,
    uint32_t *new_count);

/* Says where a PairPos table would be cut by an edition of the rule. The store is only read.
 *
 * places takes the cut places in order, from its first entry on: numbers of pair sets in format 1, of
 * rows in format 2. *place_count becomes how many there are. The refusals are those of a split, but
 * that only places can be short of room; *place_count then becomes 0 and places stays as it was.
 *
 * The scratch is that of a split. */
uint32_t cut_plan(
    const uint8_t *data, size_t data_len,
    const uint32_t *objects, size_t objects_len,
    const uint32_t *links, size_t links_len,
    const uint32_t counts[3],
    uint32_t table,
    uint32_t edition,
    uint32_t *walk, size_t walk_len,
    uint8_t *glyph_set, size_t glyph_set_len,
    uint16_t *glyphs, size_t glyphs_len,
    uint16_t *classes, size_t classes_len,
    uint16_t *cuts, size_t cuts_len,
    uint16_t *places, size_t places_len,
    uint32_t *place_count);

/* Reads what a PairPos table says of two glyphs, the first before the second. The store is only read.
 *
 * values becomes eight numbers for the first glyph and eight for the second: X placement,
 * Y placement, X advance, Y advance, then their four devices, each as the number of the linked object
 * plus one, or 0; *found becomes 1. Where there is no pair, and where it is refused (1 to 5 and 11), all
 * sixteen numbers and *found become 0. It looks at every linked pair set of the table. */
uint32_t read_pair(
    const uint8_t *data, size_t data_len,
    const uint32_t *objects, size_t objects_len,
    const uint32_t *links, size_t links_len,
    const uint32_t counts[3],
    uint32_t table,
    uint16_t first,
    uint16_t second,
    int32_t values[16],
    uint32_t *found);

/* Splits a MarkBasePos table at the cut places of an edition of the rule, between mark classes.
 *
 * It does as split_pairpos does, with mark classes for items; a format other than 1 is nothing to
 * split. The kept table gets a mark coverage, a mark array and a base array of its own, as each new
 * table does, so the old ones keep their bytes and links; all share the base coverage and the anchors.
 *
 * Of K cuts, K above 0, it needs room for 4K + 3 objects, for 4K links and as many as the mark array and
 * the base array have together, for K entries of new_tables and for the bytes of all new objects. */
uint32_t split_markbasepos(
    uint8_t *data, size_t data_len,
    uint32_t *objects, size_t objects_len,
    uint32_t *links, size_t links_len,
    uint32_t counts[3],
    uint32_t table,
    uint32_t edition,
    uint32_t *walk, size_t walk_len,
    uint8_t *glyph_set, size_t glyph_set_len,
    uint16_t *glyphs, size_t glyphs_len,
    uint16_t *classes, size_t classes_len,
    uint16_t *cuts, size_t cuts_len,
    uint32_t *new_tables, size_t new_tables_len,
    uint32_t *new_count);

/* Says where a MarkBasePos table would be cut, as cut_plan does: places are numbers of mark classes. */
uint32_t cut_plan_markbasepos(
    const uint8_t *data, size_t data_len,
    const uint32_t *objects, size_t objects_len,
    const uint32_t *links, size_t links_len,
    const uint32_t counts[3],
    uint32_t table,
    uint32_t edition,
    uint32_t *walk, size_t walk_len,
    uint8_t *glyph_set, size_t glyph_set_len,
    uint16_t *glyphs, size_t glyphs_len,
    uint16_t *classes, size_t classes_len,
    uint16_t *cuts, size_t cuts_len,
    uint16_t *places, size_t places_len,
    uint32_t *place_count);

/* Reads by which anchors a MarkBasePos table attaches a mark glyph to a base glyph. The store is only
 * read.
 *
 * anchors becomes the anchor object of the mark and that of the base, each as its number plus one;
 * *found becomes 1. Where there is no attachment, and where it is refused (1 to 5), both numbers and
 * *found become 0. */
uint32_t read_mark(
    const uint8_t *data, size_t data_len,
    const uint32_t *objects, size_t objects_len,
    const uint32_t *links, size_t links_len,
    const uint32_t counts[3],
    uint32_t table,
    uint16_t mark,
    uint16_t base,
    uint32_t anchors[2],
    uint32_t *found);

/* Splits a PairPos table, and enters the new tables in each lookup of a list that names it.
 *
 * list is the number of a GPOS lookup list: a count, then an offset for each lookup, linked at 2 + 2i. A
 * lookup is a type, a flag, a count, an offset for each subtable, linked at 6 + 2i, and a mark filtering set
 * where the flag has bit 0010 hex. A slot may be without a link. Lookups of any type may be listed.
 *
 * It splits as split_pairpos does. Then each lookup of type 2 of the list that names the table is written as
 * a new object, behind those of the split and in the order of the list: with the new tables directly behind
 * each listing of the old one, its count set, zero offsets and all else copied. Every link to the old lookup,
 * of either kind, then leads to the new one; the old lookup's own order-only links stay with it. Applied to
 * two glyphs, each lookup says what it said before, where all its subtables can be read and no other leads to
 * the table.
 *
 * With no cut, with a format other than 1 and 2, and where it is refused, *new_count becomes 0 and
 * store, counts and new_tables stay as they were.
 *
 * Of K cuts, K above 0, it needs what split_pairpos needs, and for each such lookup an object, as many links
 * and bytes as it has, and K links and 2K bytes for each listing. */
uint32_t split_in_lookups(
    uint8_t *data, size_t data_len,
    uint32_t *objects, size_t objects_len,
    uint32_t *links, size_t links_len,
    uint32_t counts[3],
    uint32_t list,
    uint32_t table,
    uint32_t edition,
    uint32_t *walk, size_t walk_len,
    uint8_t *glyph_set, size_t glyph_set_len,
    uint16_t *glyphs, size_t glyphs_len,
    uint16_t *classes, size_t classes_len,
    uint16_t *cuts, size_t cuts_len,
    uint32_t *new_tables, size_t new_tables_len,
    uint32_t *new_count);

/* Keeps what offsets reach from a list of roots, and closes the store up.
 *
 * Every entry of roots is a root, and one that stands twice is one root. Roots and what their offsets reach
 * are kept, in their order: their bytes, rows and numbers follow one another from 0 on with no gap. Their
 * links lead where they led, by the new numbers; an order-only link stays where both its ends do. With no
 * root nothing is kept.
 *
 * Each entry of roots becomes the new number of its object, counts what is left in use, and *moved the summed
 * length of the kept objects whose bytes start elsewhere than before. What lies between the new counts and
 * the old ones becomes zero, and is room; what lies behind the old ones stays as it was. Tables that are kept
 * say what they said, with devices and anchors under their new numbers.
 *
 * It is refused by SPLITTER_UNSOUND, by SPLITTER_NO_TABLE where a root is not in use, and by
 * SPLITTER_SHORT_SCRATCH where walk is shorter than two numbers for each object in use: *moved becomes 0, and
 * store, counts and roots stay as they were. walk is zero after every call. */
uint32_t compact(
    uint8_t *data, size_t data_len,
    uint32_t *objects, size_t objects_len,
    uint32_t *links, size_t links_len,
    uint32_t counts[3],
    uint32_t *roots, size_t roots_len,
    uint32_t *walk, size_t walk_len,
    uint32_t *moved);

#ifdef __cplusplus
}
#endif

#endif
