//! The command, run as it is.

mod common;
#[path = "../src/command/font/tests/made.rs"]
mod made;
#[macro_use]
mod run;

use common::{bytes, cut_marks, empty_slot, format1, store, w10};
use run::*;
use splitter::{
    store_file::{StoreFile, Table},
    Refusal, Store,
};
use std::{
    fs::{self, OpenOptions},
    process::Stdio,
};

/// A table of three sets, which is cut at 2.
fn three_sets() -> Store {
    format1(&[30_000; 3])
}

#[test]
fn the_sample() {
    let plain = done(run!());
    fits_the_terminal(&plain);
    assert!(plain.is_ascii());
    assert_eq!(plain.matches("Every pair reads as before").count(), 2);
    assert_eq!(plain.matches("Every attachment reads as before").count(), 1);
    assert_eq!(
        plain
            .matches("Every pair of the lookup reads as before")
            .count(),
        1
    );
    assert_eq!(plain.matches("3 tables in its place").count(), 4);
    assert_eq!(plain.matches(" lists 2 subtables: 0, ").count(), 1);
    assert_eq!(plain.matches(" lists 4 subtables: 0, ").count(), 1);
    let titles = [1, 2, 3, 4].map(|place| format!("Sample {place} of 4"));
    for (name, title) in ["sets", "rows", "marks", "lookups"].into_iter().zip(titles) {
        let one = done(run!("sample", name));
        assert_eq!(one.matches("Sample ").count(), 1);
        assert!(one.starts_with(&title) && plain.contains(&one[..one.len() / 2]));
    }
}

/// Bars by the locale, and never a colour where nobody looks on.
#[test]
fn bars() {
    let directory = Directory::new("bars");
    let file = directory.store("a.krns", three_sets(), &[0]);
    for (locale, option, bar) in [
        ("C", "--all", "####"),
        ("C.UTF-8", "--all", "████"),
        ("en_GB.utf8", "--all", "████"),
        ("C.UTF-8", "--ascii", "####"),
    ] {
        let mut plan = command(&["plan".as_ref(), file.as_ref(), option.as_ref()]);
        let out = would_cut(Ran::of({
            plan.env("LC_ALL", locale).env("TERM", "xterm");
            plan
        }));
        assert!(
            out.contains(bar) && !out.contains('\x1b'),
            "{locale}: {out}"
        );
    }
}

/// The samples as files, split, and split again, which changes nothing.
#[test]
fn from_samples_to_split_files() {
    let directory = Directory::new("samples");
    let samples = directory.file("in/here");
    let out = done(run!("sample", "-o", samples));
    assert_eq!(out.matches("Wrote ").count(), 4);
    for (name, read, glyphs, rows) in [
        ("sample1.krns", "pair", ["200", "90"], 9),
        ("sample2.krns", "pair", ["460", "300"], 9),
        ("sample3.krns", "mark", ["902", "405"], 5),
        ("sample4.krns", "pair", ["200", "90"], 9),
    ] {
        let [first, second] = glyphs;
        let sample = samples.join(name);
        let plan = would_cut(run!("plan", sample));
        fits_the_terminal(&plan[plan.find('\n').unwrap()..]);
        assert!(plan.contains("3 tables in its place"));

        let once = directory.file("once.krns");
        let out = done(run!("split", sample, "-o", once));
        assert!(out.contains("kept 0") && out.contains("Wrote "));
        let (before, after) = (read_store(&sample), read_store(&once));
        assert_eq!((before.tables().len(), after.tables().len()), (1, 3));
        let kind = before.tables()[0].kind;
        assert!(after.tables().iter().all(|table| table.kind == kind));
        let plan = done(run!("plan", once));
        assert_eq!(plan.matches("It fits as it is").count(), 3);

        let twice = directory.file("twice.krns");
        done(run!("split", once, "--output", twice));
        assert_eq!(fs::read(&once).unwrap(), fs::read(&twice).unwrap());

        let values = |out: String| out.lines().skip(1).map(String::from).collect::<Vec<_>>();
        let old = values(done(run!(read, sample, "0", first, second)));
        assert_eq!(old.len(), rows);
        let last = after.tables()[2].number.to_string();
        assert_eq!(values(done(run!(read, once, last, first, second))), old);
        let none = done(run!(read, once, "0", first, second));
        assert!(none.contains("no pair") || none.contains("does not attach"));
        // Without a table, the kept and the new ones are read in order.
        assert_eq!(values(done(run!(read, once, first, second))), old);
        let none = done(run!(read, once, "1", "2"));
        assert!(none.starts_with("None of its 3 "), "{none}");
    }
    assert_eq!(directory.names(), ["in", "once.krns", "twice.krns"]);
}

#[test]
fn a_split_in_place() {
    let directory = Directory::new("place");
    let file = directory.store("a.krns", three_sets(), &[0]);
    let before = fs::read(&file).unwrap();
    failed(run!("split", file, "-o", file), BAD_USAGE, "--in-place");
    let other_name = directory.file("./a.krns");
    failed(
        run!("split", file, "-o", other_name),
        BAD_USAGE,
        "--in-place",
    );
    assert_eq!(fs::read(&file).unwrap(), before);
    let out = done(run!("split", file, "--in-place", "--check"));
    assert!(out.contains("Every pair reads as before: 3 first glyphs x 2 second glyphs"));
    assert_eq!(read_store(&file).tables(), pairs(&[0, 8]));
    assert_eq!(directory.names(), ["a.krns"]);
}

/// Each edition cuts in its own places, and it is said which tables are within the limit, and why not.
#[test]
fn editions() {
    let directory = Directory::new("editions");
    let file = directory.store("a.krns", w10(), &[0]);
    let output = directory.file("b.krns");
    let words = |text: String| {
        fits_the_terminal(&directory.named_short(&text));
        text.split_whitespace().collect::<Vec<_>>().join(" ")
    };
    let first = [
        "Edition 1 cuts it at pair set 1: 2 tables in its place.",
        "Past the limit: pair sets 1 to 2, 90,022 bytes: edition 1 does not measure what the item at the \
         cut shares.",
        "Within the limit of 65,535 bytes: the other table, of 40,118 bytes at most.",
    ];
    let second = [
        "Edition 2 cuts it at pair sets 1, 2: 3 tables in its place.",
        "Past the limit: pair set 1, 70,018 bytes: a single item is too large by itself.",
        "Within the limit of 65,535 bytes: the other 2 tables, of 40,118 bytes at most.",
    ];
    for (edition, sentences, tables) in [("1", first, &[0, 9][..]), ("2", second, &[0, 9, 11])] {
        let plan = words(would_cut(run!("plan", file, "--edition", edition)));
        let split = run!("split", file, "--edition", edition, "-o", output, "--check");
        let split = words(done(split));
        for sentence in sentences {
            assert!(plan.contains(sentence), "{plan}");
            assert!(split.contains(sentence), "{split}");
        }
        assert!(split.contains("Every pair reads as before"));
        assert_eq!(read_store(&output).tables(), pairs(tables));
        // What edition 2 leaves it does not cut again.
        let again = run!("plan", output, "--edition", "2");
        assert_eq!(again.code, Some(if edition == "1" { 4 } else { 0 }));
    }
    let plain = would_cut(run!("plan", file));
    assert_eq!(plain, would_cut(run!("plan", file, "--edition=1")));
    for other in ["0", "3", "two"] {
        let ran = run!("plan", file, "--edition", other);
        assert_eq!(ran.out, "");
        failed(ran, BAD_USAGE, "wants the edition to be 1 or 2");
    }
    let sample = done(run!("sample", "--edition", "2"));
    assert_eq!(sample.matches("Edition 2 cuts it at ").count(), 4);
    assert_eq!(
        sample
            .matches("Within the limit of 65,535 bytes: all 3")
            .count(),
        4
    );
}

/// A table that an edition does not cut, and that is past the limit all the same.
#[test]
fn past_the_limit_and_not_cut() {
    let directory = Directory::new("uncut");
    let file = directory.store("a.krns", empty_slot(65_514), &[0]);
    let output = directory.file("b.krns");
    let sentence =
        "Edition 1 does not cut it. It takes 65,536 bytes, past the limit: edition 1 counts \
                    nothing for empty slots.";
    for out in [
        done(run!("plan", file)),
        done(run!("split", file, "-o", output)),
    ] {
        let words: Vec<&str> = out.split_whitespace().collect();
        assert!(words.join(" ").contains(sentence), "{out}");
    }
    let cut = would_cut(run!("plan", file, "--edition", "2"));
    assert!(cut.contains("Edition 2 cuts it at pair set 1: 2 tables in its place."));
    assert!(cut.contains("Within the limit of 65,535 bytes: both tables, of 65,532 bytes at most."));
    let too_large = directory.store("c.krns", format1(&[65_518]), &[0]);
    let out = done(run!("plan", too_large, "--edition", "2"));
    let words: Vec<&str> = out.split_whitespace().collect();
    assert!(words
        .join(" ")
        .contains("past the limit: a single item is too large by itself."));
}

/// A table that is not listed, one that fits, and one of another format.
#[test]
fn tables_by_number() {
    let directory = Directory::new("number");
    let mut store = three_sets();
    let other = store.add_object(&bytes(&[3, 0])).unwrap();
    let unlisted = directory.store("a.krns", store.clone(), &[]);
    let split = directory.file("b.krns");
    failed(run!("plan", unlisted), BAD_FILE, "lists no table");
    failed(
        run!("split", unlisted, "-o", split),
        BAD_FILE,
        "lists no table",
    );
    let out = done(run!("split", unlisted, "0", "-o", split));
    assert!(out.contains("Edition 1 cuts it at pair set 2: 2 tables in its place."));
    assert_eq!(read_store(&split).tables(), pairs(&[0, 9]));

    let number = other.to_string();
    let pair = done(run!("pair", unlisted, number, "10", "70"));
    assert!(pair.contains("only formats 1 and 2 have pairs"));
    assert!(done(run!("plan", unlisted, number)).contains("only formats 1 and 2 are split"));
    done(run!("split", unlisted, number, "-o", split));
    let same = StoreFile::new(store, pairs(&[other])).unwrap();
    assert_eq!(fs::read(&split).unwrap(), same.to_bytes());
}

/// The file says which tables are for marks, and without it the words do.
#[test]
fn tables_for_marks() {
    let directory = Directory::new("marks");
    let (store, _) = cut_marks();
    let listed = directory.store_of("a.krns", store.clone(), vec![Table::marks(0)]);
    let unlisted = directory.store("b.krns", store.clone(), &[]);
    let wrong = directory.store("c.krns", store, &[0]);
    let split = directory.file("d.krns");
    let cut = "Edition 1 cuts it at mark classes 1, 2: 3 tables in its place.";
    assert!(would_cut(run!("plan", listed)).contains(cut));
    assert!(would_cut(run!("plan", listed, "0")).contains(cut));
    assert!(would_cut(run!("plan", unlisted, "0", "--marks")).contains(cut));
    // As a table for pairs it has not the length that its header asks for.
    let fault = "table 0: its length is 12; it must be 10, by its header";
    refused(run!("plan", unlisted, "0"), Refusal::BadTable, fault);
    refused(run!("plan", wrong), Refusal::BadTable, fault);

    let mut written = Vec::new();
    for words in [
        &[listed.as_os_str()][..],
        &[unlisted.as_ref(), "0".as_ref(), "--marks".as_ref()],
        &[wrong.as_ref(), "--marks".as_ref()],
    ] {
        let before = [
            "split".as_ref(),
            "--check".as_ref(),
            "-o".as_ref(),
            split.as_ref(),
        ];
        let out = done(Ran::of(command(&[&before, words].concat())));
        assert!(out.contains("Every attachment reads as before: 4 marks x 3 bases"));
        fits_the_terminal(&directory.named_short(&out));
        written.push(fs::read(&split).unwrap());
    }
    let tables = [0, 9, 13].map(Table::marks);
    assert_eq!(read_store(&split).tables(), tables);
    assert!(written.iter().all(|bytes| *bytes == written[0]));
}

/// Tables for pairs and for marks in one file are split each in its way.
#[test]
fn tables_of_both_kinds() {
    let directory = Directory::new("both");
    let mut store = three_sets();
    let (marks, _) = cut_marks();
    let [_, offset, _] = store.view().counts();
    let view = marks.view();
    for object in 0..view.counts()[1] {
        store.add_object(view.object(object).unwrap()).unwrap();
    }
    for link in view.links() {
        let [parent, child] = [link.parent, link.child].map(|object| object + offset);
        store.add_link(parent, link.position, child).unwrap();
    }
    let tables = vec![Table::marks(offset), Table::pairs(0)];
    let file = directory.store_of("a.krns", store, tables);
    let split = directory.file("b.krns");
    let out = done(run!("split", file, "-o", split, "--check"));
    assert!(out.contains("cuts it at mark classes 1, 2") && out.contains("cuts it at pair set 2"));
    let kinds = [offset, 17, 21].map(Table::marks).into_iter();
    let tables: Vec<Table> = kinds.chain([0, 28].map(Table::pairs)).collect();
    assert_eq!(read_store(&split).tables(), tables);
}

/// An attachment, none, another format, and refusals.
#[test]
fn a_mark_on_a_base() {
    let directory = Directory::new("mark");
    let (mut store, _) = cut_marks();
    let other = store.add_object(&bytes(&[2, 0])).unwrap().to_string();
    let file = directory.store("a.krns", store, &[]);
    let out = done(run!("mark", file, "0", "30", "60"));
    let lines: Vec<Vec<&str>> = out
        .lines()
        .map(|line| line.split_whitespace().collect())
        .collect();
    let rows: [&[&str]; 6] = [
        &["Table", "0,", "mark", "30", "on", "base", "60"],
        &["mark", "30", "base", "60"],
        &["anchor", "object", "5", "object", "7"],
        &["format", "1", "0"],
        &["X", "100", "0"],
        &["Y", "200", "0"],
    ];
    assert_eq!(lines, rows);
    for [mark, base] in [["30", "61"], ["31", "60"], ["30", "62"]] {
        let none = format!("Table 0 does not attach mark {mark} to base {base}.\n");
        assert_eq!(done(run!("mark", file, "0", mark, base)), none);
    }
    let format = done(run!("mark", file, other, "30", "60"));
    assert!(format.contains("only format 1 has attachments"));
    let plan = done(run!("plan", file, other, "--marks"));
    assert!(plan.contains("only format 1 of mark-to-base tables is split"));
    for (refusal, table, fault) in [
        (
            Refusal::NoTable,
            "99",
            "the number of the table is 99; it must be below 10, how many objects are in use",
        ),
        (
            Refusal::BadTable,
            "5",
            "table 5: its length is 6; it must be at least 12, to have a header",
        ),
    ] {
        refused(run!("mark", file, table, "30", "60"), refusal, fault);
        refused(run!("plan", file, table, "--marks"), refusal, fault);
    }
    failed(
        run!("mark", file, "30", "60"),
        BAD_FILE,
        "lists no table for marks",
    );
}

#[test]
fn refused_tables() {
    let directory = Directory::new("refused");
    let file = directory.store("a.krns", three_sets(), &[0, 1, 2]);
    let output = directory.file("b.krns");
    for (refusal, table, fault) in [
        (
            Refusal::NoTable,
            "9",
            "the number of the table is 9; it must be below 8, how many objects are in use",
        ),
        (
            Refusal::BadTable,
            "1",
            "table 1: its length is 10; it must be 70, by its header",
        ),
    ] {
        refused(run!("plan", file, table), refusal, fault);
        refused(run!("split", file, table, "-o", output), refusal, fault);
        refused(run!("pair", file, table, "10", "70"), refusal, fault);
    }
    // All tables are looked at, and nothing is written.
    let plan = run!("plan", file);
    assert!(plan.out.contains("cuts it at pair set 2"));
    assert_eq!(
        plan.out
            .matches("is refused by 3 (BadTable): table")
            .count(),
        2
    );
    let advice = format!("splitter: BadTable: {}", Refusal::BadTable);
    assert_eq!(plan.err.lines().count(), 2);
    failed_with(plan, REFUSED, &["2 of 3 tables are refused\n", &advice]);
    let split = run!("split", file, "-o", output);
    assert_eq!(split.out, "");
    failed_with(
        split,
        REFUSED,
        &["table 1 is refused by 3 (BadTable): table 1: its length"],
    );
    assert_eq!(directory.names(), ["a.krns"]);
}

/// Order-only links, which lead round through the table, are in the file that is written. One that has none
/// stays of version 1.
#[test]
fn order_only_links_are_written() {
    let directory = Directory::new("order-only");
    let output = directory.file("b.krns");
    let mut ordered = three_sets();
    for (parent, child) in [(0, 2), (0, 0), (2, 0), (1, 0)] {
        ordered.add_order_link(parent, child).unwrap();
    }
    for (store, version, orders) in [(three_sets(), 1, &[][..]), (ordered, 3, &[0, 2])] {
        let file = directory.store("a.krns", store, &[0]);
        let plan = would_cut(run!("plan", file));
        assert_eq!(plan.contains("11 links (4 order-only)"), version == 3);
        done(run!("split", file, "-o", output, "--check"));
        let written = [&file, &output].map(|file| fs::read(file).unwrap()[5]);
        assert_eq!(written, [version; 2]);
        let split = read_store(&output);
        assert_eq!(split.tables(), pairs(&[0, 8]));
        let view = split.store().view();
        assert!(view.orders_of(0).eq(orders.iter().copied()));
        assert_eq!(view.orders_of(8).len(), 0);
    }
}

/// A store that can be no larger: a plan tells the cuts, and a split what there is no room for.
#[test]
fn a_store_at_its_maxima() {
    let directory = Directory::new("maxima");
    let mut store = three_sets();
    while store.view().counts()[1] < 65_535 {
        store.add_object(&[]).unwrap();
    }
    let file = directory.store("a.krns", store, &[0]);
    would_cut(run!("plan", file));
    let fault =
        "the room for new objects is 1; it must be at least 3, for what the split adds, and the \
                 store can be no larger";
    let output = directory.file("b.krns");
    refused(run!("split", file, "-o", output), Refusal::NoRoom, fault);
    assert_eq!(directory.names(), ["a.krns"]);
}

/// What is wrong with a store that is not sound is said, and it can be looked at.
#[test]
fn stores_that_are_not_sound() {
    let directory = Directory::new("unsound");
    let whole = fs::read(directory.store("a.krns", three_sets(), &[0])).unwrap();
    let file = directory.file("b.krns");
    let rows = whole.len() - 4 - 7 * 16;
    for (at, number, fault) in [
        (
            rows + 16 + 4,
            2_u32,
            "link rows 0 and 1 both stand at position 2 of object 0",
        ),
        (
            rows + 32 + 8,
            3,
            "link row 2 of object 0 at position 12: its width is 3; it must be 2",
        ),
        (
            rows + 48 + 12,
            99,
            "link row 3 of object 0 at position 14: its child is 99; it must be below 8, how many \
             objects are in use",
        ),
        (
            rows - 8 * 8,
            1,
            "the head of object row 1 is 15; it must be at least 16, where the row before ends",
        ),
    ] {
        let (at, number) = match fault.starts_with("the head") {
            true => (at + 8, 15),
            false => (at, number),
        };
        let mut bytes = whole.clone();
        bytes[at..at + 4].copy_from_slice(&number.to_be_bytes());
        fs::write(&file, bytes).unwrap();
        refused(run!("plan", file), Refusal::Unsound, fault);
        refused(run!("pair", file, "0", "1", "2"), Refusal::Unsound, fault);
        let dump = run!("dump", file);
        let said = dump.out.split_whitespace().collect::<Vec<_>>().join(" ");
        assert!(said.contains(fault), "{said}");
        assert!(dump.out.contains("0: pair table, 16 bytes"), "{}", dump.out);
        refused(dump, Refusal::Unsound, fault);
        refused(run!("dump", file, "3", "--json"), Refusal::Unsound, fault);
        let quiet = run!("dump", file, "--quiet");
        assert_eq!(quiet.out, "");
        refused(quiet, Refusal::Unsound, fault);
    }
}

/// Long lists come without their middle, unless they are asked for.
#[test]
fn many_tables() {
    let directory = Directory::new("many");
    let mut table = vec![1, 0, 4, 0, 100];
    table.resize(105, 0);
    let coverage: Vec<u16> = [1, 100].into_iter().chain(0..100).collect();
    let mut store = store(&[&table, &coverage], &[[0, 2, 1]]);
    let pairs = (0..16_384).flat_map(|second| [second, 0]);
    let pairs: Vec<u16> = [16_384].into_iter().chain(pairs).collect();
    let set = store.add_object(&bytes(&pairs)).unwrap();
    for slot in 0..100 {
        store.add_link(0, 10 + 2 * slot, set).unwrap();
    }
    let file = directory.store("a.krns", store, &[0]);
    let output = directory.file("b.krns");
    let some = done(run!("split", file, "-o", output));
    let all = done(run!("split", file, "-o", output, "--all"));
    fits_the_terminal(&directory.named_short(&some));
    fits_the_terminal(&directory.named_short(&all));
    assert!(some.contains("more tables") && some.contains(", .. 99"));
    let words = |text: &str| text.split_whitespace().collect::<Vec<_>>().join(" ");
    let past = |set: u16| {
        let why = "a single item is too large by itself";
        format!("Past the limit: pair set {set}, 65,556 bytes: {why}.")
    };
    assert!(words(&some).contains(&past(0)) && words(&some).contains("92 more tables."));
    assert!((0..100).all(|set| words(&all).contains(&past(set))));
    assert!(all.lines().count() > 200 && !all.contains("more table"));
}

#[test]
fn files_that_cannot_be_read() {
    let directory = Directory::new("read");
    let file = directory.store("a.krns", three_sets(), &[0]);
    let whole = fs::read(&file).unwrap();
    let output = directory.file("b.krns");
    let damaged = directory.file("c.krns");
    let run_all = |words: &str| {
        failed(run!("plan", damaged), BAD_FILE, words);
        failed(run!("split", damaged, "-o", output), BAD_FILE, words);
        failed(run!("pair", damaged, "0", "1", "2"), BAD_FILE, words);
        failed(run!("mark", damaged, "0", "1", "2"), BAD_FILE, words);
        failed(run!("dump", damaged), BAD_FILE, words);
    };
    run_all("there is no such file");
    fs::write(&damaged, &whole[..whole.len() - 1]).unwrap();
    run_all("its header asks for");
    fs::write(&damaged, b"something else").unwrap();
    run_all("it is not a store file");
    fs::write(&damaged, made::font(&[])).unwrap();
    run_all("it is a font and not a store file");
    let mut version = whole.clone();
    version[5] = 4;
    fs::write(&damaged, &version).unwrap();
    run_all("it is a store file of version 4, and only versions 1 to 3 are known");
    let longer = OpenOptions::new().write(true).open(&damaged).unwrap();
    longer.set_len(1 << 40).unwrap();
    run_all("it is longer than 33554432 bytes");
    failed(
        run!("font", damaged),
        BAD_FILE,
        "it is longer than 1073741824 bytes",
    );
    failed(run!("plan", directory.0), BAD_FILE, "it is a directory");
    assert_eq!(directory.names(), ["a.krns", "c.krns"]);
}

/// What cannot be written leaves nothing behind.
#[test]
fn files_that_cannot_be_written() {
    let directory = Directory::new("write");
    let file = directory.store("a.krns", three_sets(), &[0]);
    let missing = directory.file("no/such/b.krns");
    failed(
        run!("split", file, "-o", missing),
        BAD_FILE,
        "it cannot be written",
    );
    failed(
        run!("split", file, "-o", directory.0),
        BAD_FILE,
        "no file to be written over",
    );
    failed(
        run!("split", file, "-o", "/dev/null"),
        BAD_FILE,
        "no file to be written over",
    );
    failed(
        run!("sample", "-o", file),
        BAD_FILE,
        "the directory cannot be made",
    );
    assert_eq!(directory.names(), ["a.krns"]);
}

#[test]
fn a_font() {
    let directory = Directory::new("font");
    let path = directory.file("a.ttf");
    let lookups = [
        made::lookup(2, &[made::pair_sets(), made::pair_rows(false)]),
        made::lookup(9, &[made::extension(2, &made::pair_rows(true))]),
        made::lookup(4, &[made::mark_table()]),
    ];
    let font = made::font(&[(b"GPOS", made::gpos(&lookups))]);
    let fonts = [font];
    for font in [&made::collection(&fonts), &fonts[0]] {
        fs::write(&path, font).unwrap();
        let out = done(run!("font", path));
        let found =
            "3 lookups in GPOS: 2 for pairs, with 3 subtables; 1 for marks on bases, with 1";
        assert!(out.contains(found), "{out}");
        assert_eq!(out.matches("  none\n").count(), 4);
        assert!(out.contains("2        0  marks       1         82       2       2  none"));
        let words: Vec<&str> = out.split_whitespace().collect();
        assert!(words.join(" ").ends_with(
            "No table would be cut by edition 1. What is in a font fits its offsets already, so most tables \
             have no cut places. But the rule counts whole parts, where an offset only has to \
             reach the start of one: a table close to the limit can have them."
        ));
        fits_the_terminal(&out[out.find('\n').unwrap()..]);
    }
    fs::write(&path, made::font(&[])).unwrap();
    assert!(done(run!("font", path)).contains("has no GPOS table"));
}

/// One subtable without coverage, one that ends too soon, and one that is fine.
#[test]
fn a_damaged_font() {
    let directory = Directory::new("damaged");
    let path = directory.file("a.ttf");
    let bad = [
        made::words(&[1, 0, 4, 0, 0]),
        made::words(&[1, 0, 4, 0, 999]),
    ];
    let lookups = [
        made::lookup(2, &[&[made::pair_sets()], &bad[..]].concat()),
        made::lookup(4, &[made::words(&[1, 0, 0, 2, 0, 0])]),
    ];
    fs::write(&path, made::font(&[(b"GPOS", made::gpos(&lookups))])).unwrap();
    let ran = run!("font", path);
    assert_eq!(ran.out.matches("  none\n").count(), 1);
    assert_eq!(ran.out.matches("refused: BadParts").count(), 2);
    assert!(ran
        .out
        .contains("refused: it is damaged: a pair table at byte"));
    assert!(ran
        .out
        .contains("\nBadParts: a coverage, a class definition or an array is not linked"));
    let fault = "table 0 has no link at position 2, where its coverage is wanted";
    assert!(ran.out.contains(fault), "{}", ran.out);
    failed(ran, REFUSED, "3 of 4 tables are refused");
    for (bytes, words) in [
        (
            &b"not a font at all"[..],
            "it is no TrueType or OpenType font",
        ),
        (b"wOF2", "it is a WOFF font"),
        (b"", "it is damaged"),
    ] {
        fs::write(&path, bytes).unwrap();
        failed(run!("font", path), BAD_FILE, words);
    }
    failed(
        run!("font", directory.file("b.ttf")),
        BAD_FILE,
        "there is no such file",
    );
}

#[test]
fn help_and_version() {
    let help = done(run!("--help"));
    assert_eq!(done(run!("help")), help);
    for name in ["sample", "plan", "split", "pair", "mark", "dump", "font"] {
        assert!(help.contains(&format!("splitter {name} ")));
        let text = done(run!("help", name));
        assert!(text.starts_with(&format!("splitter {name} ")));
        assert_eq!(done(run!(name, "--help")), text);
    }
    let version = done(run!("--version"));
    let lines: Vec<&str> = version.lines().collect();
    assert_eq!(lines[0], concat!("splitter ", env!("CARGO_PKG_VERSION")));
    assert_eq!(lines[1], "interface 3");
    for (line, start) in lines[2..]
        .iter()
        .zip(["kit ", "archive sha256 ", "commit "])
    {
        assert!(line.starts_with(start), "{line}");
    }
    assert_eq!(lines.len(), 5);
}

#[test]
fn words_that_cannot_be_followed() {
    failed(run!("splt"), BAD_USAGE, "did you mean \"split\"?");
    failed(run!("plan"), BAD_USAGE, "plan wants FILE");
    failed(run!("plan", "a", "b"), BAD_USAGE, "\"b\" is none");
    failed(run!("split", "a"), BAD_USAGE, "add -o FILE");
    failed(
        run!("pair", "a", "0", "1", "65536"),
        BAD_USAGE,
        "from 0 to 65535",
    );
    failed(
        run!("font", "a", "b"),
        BAD_USAGE,
        "no use for the word \"b\"",
    );
    failed(run!("help", "me"), BAD_USAGE, "there is no command \"me\"");
}

/// A reader that has seen enough is no error, and what was asked for is done.
#[test]
fn a_reader_that_goes_away() {
    let directory = Directory::new("reader");
    let file = directory.store("a.krns", three_sets(), &[0]);
    let output = directory.file("b.krns");
    let mut split = command(&[
        "split".as_ref(),
        file.as_ref(),
        "-o".as_ref(),
        output.as_ref(),
    ]);
    let (reader, writer) = std::io::pipe().unwrap();
    drop(reader);
    split.stdout(writer).stderr(Stdio::piped());
    let ran = split.spawn().unwrap().wait_with_output().unwrap();
    assert_eq!((ran.status.code(), &ran.stderr[..]), (Some(0), &b""[..]));
    assert_eq!(read_store(&output).tables(), pairs(&[0, 8]));
}

#[test]
fn a_full_disk() {
    let mut full = command(&["help".as_ref()]);
    let disk = OpenOptions::new().write(true).open("/dev/full").unwrap();
    full.stdout(disk).stderr(Stdio::piped());
    let ran = full.spawn().unwrap().wait_with_output().unwrap();
    assert_eq!(ran.status.code(), Some(BAD_FILE));
    let sentence = String::from_utf8(ran.stderr).unwrap();
    assert!(sentence.starts_with("splitter: standard output cannot be written"));
}
