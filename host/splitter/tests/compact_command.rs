//! `splitter compact` and `split --compact`, run as they are.

mod common;
#[macro_use]
mod run;

use common::{bytes, cut_marks, format1, listed, store, LIST};
use run::*;
use splitter::{
    read_pair, split, split_in_lookups, split_marks, store_file::Table, Edition, Kind, Refusal,
    Scratch, Store,
};
use std::fs;

/// A table of three sets, which was cut at 2, behind an object that nothing needs.
fn after_a_night() -> (Store, Vec<u32>) {
    let mut store = format1(&[30_000; 3]);
    let new = split(&mut store, 0, Edition::Second, &mut Scratch::new()).unwrap();
    store.add_object(&[0; 100]).unwrap();
    store.add_order_link(0, 1).unwrap();
    (store, [0].into_iter().chain(new).collect())
}

#[test]
fn a_store_without_what_nothing_needs() {
    let directory = Directory::new("compact");
    let (store, tables) = after_a_night();
    let before = store.clone();
    let file = directory.store("a.krns", store, &tables);
    let output = directory.file("b.krns");
    let out = done(run!("compact", file, "-o", output));
    let expected = "\
a.krns: 12 objects, 9 links (1 order-only), 90,152 data bytes

Kept: 2 tables, and all that they lead to.
Gone: 2 objects, 1 link (1 order-only), 112 data bytes.
Left: 10 objects, 8 links, 90,040 data bytes; 90,026 bytes moved.

   root was          is
          8           7

Wrote b.krns (90,276 bytes).
";
    assert_eq!(directory.named_short(&out), expected);
    let after = read_store(&output);
    assert_eq!(after.tables(), pairs(&[0, 7]));
    for first in [10, 20, 30] {
        for (old, new) in [(0, 0), (8, 7)] {
            let read = read_pair(after.store(), new, first, 70);
            assert_eq!(read, read_pair(&before, old, first, 70));
        }
    }
    // Again there is nothing to drop, over the file itself too.
    let bytes = fs::read(&output).unwrap();
    let again = done(run!("compact", output, "--in-place"));
    assert!(again.contains("Gone: nothing.\n") && again.contains("; 0 bytes moved."));
    assert!(again.contains("All roots keep their numbers.\n"));
    assert_eq!(fs::read(&output).unwrap(), bytes);
}

/// Listed tables are roots, whatever else is named, and keep their kinds and their order.
#[test]
fn roots() {
    let directory = Directory::new("roots");
    let objects: [&[u16]; 5] = [&[0], &[3], &[5], &[3], &[7, 7]];
    let store = store(&objects, &[[4, 2, 0]]);
    let file = directory.store_of("a.krns", store, vec![Table::marks(3), Table::pairs(1)]);
    let output = directory.file("b.krns");
    let compact = |words: &[&str]| {
        let named = words.iter().flat_map(|&word| ["--root", word]);
        let mut command = command(&["compact".as_ref(), file.as_ref(), "-o".as_ref()]);
        command.arg(&output).args(named);
        let out = done(Ran::of(command));
        (out, read_store(&output))
    };
    let (out, after) = compact(&[]);
    assert!(out.contains("Kept: 2 tables, and all"));
    assert_eq!(after.tables(), [Table::marks(1), Table::pairs(0)]);
    assert_eq!(after.store().view().counts(), [4, 2, 0]);
    // Object 4 leads to object 0; a table that is named too, and a root that is named twice, are one root.
    let (out, after) = compact(&["4", "0x1", "4"]);
    assert!(out.contains("Kept: 2 tables, 1 object more, and all"));
    assert!(out.contains("          4           3\n"));
    assert_eq!(after.tables(), [Table::marks(2), Table::pairs(1)]);
    assert_eq!(after.store().view().child(3, 2), Some(0));

    // No table is listed.
    let bare = directory.store("c.krns", after.into_parts().0, &[]);
    let out = done(run!("compact", bare, "-o", output, "--root=3"));
    assert!(out.contains("Kept: 1 object, and all"));
    assert_eq!(read_store(&output).store().view().counts()[1], 2);
    let old = fs::read(&output).unwrap();
    let nothing = run!("compact", bare, "-o", output);
    failed(
        nothing,
        BAD_FILE,
        "it lists no table, so nothing would be left",
    );
    let refused_root = run!("compact", bare, "-o", output, "--root", "0", "--root", "4");
    let words =
        "entry 1 of the list of roots is 4; it must be below 4, how many objects are in use";
    assert!(refused_root
        .err
        .contains(": root 4 is refused by 2 (NoTable): "));
    refused(refused_root, Refusal::NoTable, words);
    assert_eq!(fs::read(&output).unwrap(), old);
}

/// A lookup list is no table: it is a root where it is named.
#[test]
fn lookups_are_named() {
    let directory = Directory::new("lookup-roots");
    let (mut store, _) = listed();
    split_in_lookups(&mut store, LIST, 0, Edition::Second, &mut Scratch::new()).unwrap();
    let file = directory.store("a.krns", store, &[0]);
    let output = directory.file("b.krns");
    let named = LIST.to_string();
    done(run!("compact", file, "-o", output, "--root", named));
    let [_, objects, _] = read_store(&output).store().view().counts();
    done(run!("compact", file, "-o", output));
    let [_, fewer, _] = read_store(&output).store().view().counts();
    assert!(fewer < objects);
}

#[test]
fn split_and_compacted() {
    let directory = Directory::new("split-compact");
    let mut before = Store::new();
    before.add_object(&[0; 10]).unwrap();
    let (sets, (marks, _)) = (format1(&[30_000; 3]), cut_marks());
    let tables = [join(&mut before, &sets), join(&mut before, &marks)];
    let listed = vec![Table::pairs(tables[0]), Table::marks(tables[1])];
    let file = directory.store_of("a.krns", before.clone(), listed);
    let output = directory.file("b.krns");
    let out = done(run!("split", file, "-o", output, "--compact", "--check"));
    fits_the_terminal(&directory.named_short(&out));
    assert!(out.contains("Every pair reads as before") && out.contains("Every attachment reads"));
    assert!(out.contains("Kept: 5 tables, and all that they lead to.\n"));
    // The first object, a coverage, and a mark coverage with both arrays.
    assert!(out.contains("Gone: 5 objects, 7 links, "));

    let scratch = &mut Scratch::new();
    let mut after = before.clone();
    let mut numbers = vec![tables[0]];
    numbers.extend(split(&mut after, tables[0], Edition::First, scratch).unwrap());
    numbers.push(tables[1]);
    numbers.extend(split_marks(&mut after, tables[1], Edition::First, scratch).unwrap());
    let roots = after.compact(&numbers).unwrap().roots;
    let written = read_store(&output);
    assert!(written
        .tables()
        .iter()
        .map(|table| table.number)
        .eq(roots.iter().copied()));
    let kinds = written.tables().iter().map(|table| table.kind);
    let [p, m] = Kind::ALL;
    assert!(kinds.eq([p, p, m, m, m]));
    assert_eq!(written.store().view().data(), after.view().data());
    // What is told are the numbers of the file that is written.
    assert!(out.contains(&format!("kept {} ", roots[0])), "{out}");
    assert!(out.contains(&format!("new {} ", roots[1])), "{out}");
    assert!(!out.contains(&format!("new {} ", numbers[1])), "{out}");
    // Only tables that were there before have an old number.
    let renumbered = "is\n          1           0\n          9           7\n\nWrote ";
    assert!(out.contains(renumbered), "{out}");
    assert_eq!(
        done(run!("plan", output))
            .matches("It fits as it is")
            .count(),
        5
    );
}

/// Adds the objects and links of a store behind those of another, and gives the number of its first.
fn join(store: &mut Store, other: &Store) -> u32 {
    let (view, [_, first, _]) = (other.view(), store.view().counts());
    for object in 0..view.counts()[1] {
        store.add_object(view.object(object).unwrap()).unwrap();
    }
    for link in view.links() {
        let (parent, child) = (first + link.parent, first + link.child);
        store.add_link(parent, link.position, child).unwrap();
    }
    first
}

/// Where it is written, and what is shown, is as of a split.
#[test]
fn usage() {
    let directory = Directory::new("compact-usage");
    let file = directory.store("a.krns", store(&[&[3]], &[]), &[0]);
    failed(run!("compact", file), BAD_USAGE, "add -o FILE");
    failed(run!("compact"), BAD_USAGE, "compact wants FILE");
    failed(
        run!("compact", file, "-o", file),
        BAD_USAGE,
        "say --in-place",
    );
    let words = "wants ROOT to be a number from 0 to 4294967295, and \"x\" is none";
    failed(
        run!("compact", file, "-o", "b", "--root", "x"),
        BAD_USAGE,
        words,
    );
    failed(run!("compact", "none", "-o", "b"), BAD_FILE, "no such file");
    failed(run!("compct", file), BAD_USAGE, "did you mean \"compact\"?");
    let mut to_standard = command(&["compact".as_ref(), file.as_ref(), "-o".as_ref()]);
    let written = to_standard.arg("-").output().unwrap();
    assert_eq!(written.stdout, fs::read(&file).unwrap());
    assert_eq!(done(run!("compact", file, "--in-place", "--quiet")), "");
    assert!(done(run!("help", "compact")).starts_with("splitter compact FILE"));
    assert_eq!(bytes(&[3]), read_store(&file).store().view().data());
}
