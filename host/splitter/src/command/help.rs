//! How the command is used.

use super::arguments::Name;
use splitter::{provenance, raw::INTERFACE};

/// Which version this is.
pub fn version() -> String {
    let known = |what: Option<&'static str>| what.unwrap_or("not known");
    format!(
        "splitter {}\ninterface {}\nkit {}\narchive sha256 {}\ncommit {}\n",
        provenance::VERSION,
        INTERFACE,
        known(provenance::KIT),
        known(provenance::ARCHIVE_SHA256),
        known(provenance::COMMIT),
    )
}

/// How a command is used, or all of them.
pub const fn of(topic: Option<Name>) -> &'static str {
    match topic {
        None | Some(Name::Help) => ALL,
        Some(Name::Sample) => SAMPLE,
        Some(Name::Plan) => PLAN,
        Some(Name::Split) => SPLIT,
        Some(Name::Compact) => COMPACT,
        Some(Name::Pair) => PAIR,
        Some(Name::Mark) => MARK,
        Some(Name::Dump) => DUMP,
        Some(Name::Font) => FONT,
    }
}

const ALL: &str = "\
Cuts OpenType tables for pairs of glyphs (GPOS PairPos) and for marks on bases
(MarkBasePos) that are too large into several that fit. The cutting is done by
functions that are proved to lose nothing.

    splitter                               the same as splitter sample
    splitter sample [-o DIR]               split four samples and show them
    splitter plan FILE [TABLE]             show where tables would be cut
    splitter split FILE [TABLE] -o FILE    split tables
    splitter compact FILE -o FILE          drop what no table leads to
    splitter pair FILE [TABLE] G1 G2       read what tables say of two glyphs
    splitter mark FILE [TABLE] MARK BASE   read how they attach a mark to a base
    splitter dump FILE [OBJECT]            show what is in a store
    splitter font FILE [-o DIR]            look into the GPOS table of a font
    splitter help [COMMAND]                say more of a command
    splitter --version                     say which version this is

FILE is a store file, which docs/STORE_FILE.md describes, and for font a font; -
is standard input. Numbers may be written in tens or, as 0x1F, in sixteens.

    --edition 1|2  for sample, plan, split and font: by which edition of the
                   rule tables are cut; 1 unless it is said
    --json         for all but sample: write JSON, for programs;
                   docs/COMMAND.md describes it
    -q, --quiet    for all but sample: write nothing, and let the exit code tell

Edition 1 cuts as the crate skera 0.6.0 does, for fonts that are fielded.
Edition 2 measures again what the item at a cut leads to, and leaves no table of
two or more items that is past the limit.

Exit codes: 0 done, and for plan and font nothing to split; 1 refused; 2 bad
usage; 3 a file that cannot be read or written; 4 for plan and font, something
would be cut; 5 for --check, something reads otherwise. What is wrong stands on
standard error: a refusal says what is at fault, where, and what is wanted.
";

const SAMPLE: &str = "\
splitter sample [sets | rows | marks | lookups] [--edition 1|2] [-o DIR]
                [--ascii]

Splits built-in stores: pairs in each format, marks on bases, and pairs in a
lookup, in which the new tables are entered. Shows the old table, where it is
cut, what comes of it, and that every pair or attachment reads as before.

    sets, rows, marks   one of them: pairs in format 1, pairs in format 2, marks
    lookups             pairs in format 1, the first of two tables in a lookup
    --edition 1|2       by which edition of the rule they are cut, 1 or 2
    -o, --output DIR    write the stores into a directory, as sample1.krns to
                        sample4.krns, and split nothing
    --ascii             draw bars in ASCII, whatever the locale

Columns: items are the pair sets or rows of a table; glyphs, the first glyphs
that it covers; bytes, of the table and all that it leads to; itself, of the
table alone; coverage, class 1 and class 2, of its coverage and its class
definitions. For marks: classes are mark classes; marks, those that it covers;
coverage, marks and bases, of its mark coverage and its two arrays.
";

const PLAN: &str = "\
splitter plan FILE [TABLE] [--edition 1|2] [--marks] [--all] [--ascii]
              [--json | --quiet]

Shows where the tables of a store file would be cut, and changes nothing. TABLE
is the number of an object; without it all tables that the file lists are shown.
The file says which of these are mark-to-base tables. Bytes do not tell, so a
table that it does not list is for pairs, unless --marks is there.

    --edition 1|2  by which edition of the rule they would be cut, 1 unless it
                   is said
    --marks        the tables are mark-to-base, whatever the file says
    --all          show long lists whole
    --ascii        draw bars in ASCII, whatever the locale
    --json         write JSON, for programs
    -q, --quiet    write nothing: the exit code tells

It is said of each table that a cut would make whether it is within the limit,
and why it is not: a single item may be too large by itself, and edition 1 does
not measure what the item at a cut shares, nor count empty slots. Counted are
the table, all that its items lead to, each object once, its coverage, class
definitions and arrays; of pairs in format 2 the largest part is left out.

The exit code is 0 where there is nothing to split, 4 where a table would be
cut, and 1 where one is refused. The others are shown all the same then, and
each refusal says what is at fault.
";

const SPLIT: &str = "\
splitter split FILE [TABLE] (-o FILE | --in-place) [--edition 1|2] [--check]
               [--compact] [--marks] [--all] [--ascii] [--json | --quiet]

Splits the tables of a store file and writes the store with kept and new tables.
TABLE is the number of an object; without it all tables that the file lists are
split. Each table keeps its number; new ones are listed right behind it, and
what fits as it is stays. The file is written whole or, where a table is
refused, not at all, and before anything is said of it.

    -o, --output FILE    where to write; the file that is read is refused here,
                         and - is standard output, which has nothing else then
    --in-place           write over the file that is read
    --edition 1|2        by which edition of the rule they are cut, 1 unless it
                         is said
    --check              read all pairs or attachments before and after; this
                         can take long
    --compact            then drop what no table of the file leads to; numbers
                         are those of the file that is written
    --marks              the tables are mark-to-base, whatever the file says
    --all                show long lists whole
    --ascii              draw bars in ASCII, whatever the locale
    --json               write JSON, for programs
    -q, --quiet          write nothing: the exit code tells

\"splitter help plan\" says how tables for pairs and for marks are told apart,
and when one is within the limit; \"splitter help sample\" explains the columns.
";

const COMPACT: &str = "\
splitter compact FILE (-o FILE | --in-place) [--root N].. [--all]
                 [--json | --quiet]

Drops the objects of a store file that nothing needs any more, such as the parts
that split tables had before. Kept are the tables that the file lists, objects
that --root names, and all that their offsets reach; an order-only link stays
where both its ends do. What is kept stays in its order and gets the lowest
numbers, and the file lists its tables by these. Says how many objects, links
and bytes went, how many bytes moved, and which roots have other numbers now.

    -o, --output FILE    where to write; the file that is read is refused here,
                         and - is standard output, which has nothing else then
    --in-place           write over the file that is read
    --root N             keep object N too, and what it leads to; this may be
                         said more than once
    --all                show long lists whole
    --json               write JSON, for programs
    -q, --quiet          write nothing: the exit code tells

No offset leads from a table to the lookups that list it, so a file with lookups
wants the lookup list as a root.
";

const PAIR: &str = "\
splitter pair FILE [TABLE] G1 G2 [--json | --quiet]

Reads what the tables of a store file say of glyph G1 before glyph G2: four
values and four devices for each. TABLE is the number of an object; without it
the tables for pairs that the file lists are asked in order, kept and new ones,
and the first that has the pair decides, as in a shaper. That there is no pair
is no error.
";

const MARK: &str = "\
splitter mark FILE [TABLE] MARK BASE [--json | --quiet]

Reads by which anchors the mark-to-base tables of a store file attach the glyph
MARK to the glyph BASE: the two objects, and their coordinates. TABLE is the
number of an object; without it those that the file lists are asked in order,
and the first that attaches them decides. That there is no attachment is no
error.
";

const DUMP: &str = "\
splitter dump FILE [OBJECT] [--marks] [--all] [--json | --quiet]

Shows what is in a store file, also where its store is not sound: the objects as
a tree from the tables that it lists, each with what it is, how long it is and
at which positions it leads to others, and those that no table leads to. What
an order-only link leads to is named, and not followed. With OBJECT, a tree from
that object, who leads to it, and its bytes; one that no table leads to is taken
for a table.

    --marks        tables are mark-to-base, whatever the file says
    --all          show long lists whole
    --json         write all objects, or that one, as JSON, for programs
    -q, --quiet    write nothing: the exit code tells whether it is sound

Where the store is not sound it is said what is at fault; the exit code is 1.
";

const FONT: &str = "\
splitter font FILE [--edition 1|2] [-o DIR] [--json | --quiet]

Shows the tables for pairs and for marks on bases of a TrueType or OpenType
font, or of the first font of a collection: the subtables of lookups of types 2
and 4, and those of type 9 that extend these. For each: lookup, subtable, kind,
format, bytes with all that it leads to, items (pair sets, rows or mark
classes), covered glyphs, and cut places or why it is refused. A table that is
listed more than once is shown once. Then each lookup: which subtables it lists,
and what a split would make of them.

    --edition 1|2       by which edition of the rule they would be cut, 1 unless
                        it is said
    -o, --output DIR    write each table into a directory as a store file, as
                        lookupL-subtableS-KIND.krns, for plan, split, pair, mark
                        and dump
    --json              write JSON, for programs
    -q, --quiet         write nothing: the exit code tells

What is in a font fits its offsets already, so most tables have no cut places.
But the rule counts whole parts, where an offset only has to reach the start of
one: a table close to the limit can have them.

The exit code is 0 where there is nothing to split, 4 where a table would be
cut, and 1 where one is refused. The others are shown all the same then.
";

#[cfg(test)]
mod tests {
    use super::*;
    use crate::command::text::COLUMNS;

    #[test]
    fn help_keeps_to_the_columns() {
        for text in [ALL, SAMPLE, PLAN, SPLIT, COMPACT, PAIR, MARK, DUMP, FONT] {
            for line in text.lines() {
                assert!(line.len() <= COLUMNS, "{line}");
            }
        }
    }
}
