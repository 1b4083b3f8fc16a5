//! What the command writes for programs: JSON as docs/COMMAND.md has it, and bytes.

mod common;
#[allow(dead_code)]
#[path = "../src/command/font/tests/made.rs"]
mod made;
#[macro_use]
mod run;

use common::{bytes, format1, marks, store, w10};
use run::*;
use splitter::{store_file::Table, Refusal};
use std::{
    collections::BTreeSet,
    fs,
    io::Write,
    path::Path,
    process::{Command, Stdio},
};

/// A value that was read.
#[derive(Clone, Debug, PartialEq)]
enum Value {
    Word(String),
    Number(i64),
    Text(String),
    List(Vec<Value>),
    Object(Vec<(String, Value)>),
}

/// Reads a text that is one value.
fn parse(text: &str) -> Value {
    let mut letters = text.trim().chars().peekable();
    let value = value(&mut letters);
    assert_eq!(letters.next(), None, "{text}");
    value
}

type Letters<'a> = std::iter::Peekable<std::str::Chars<'a>>;

fn skip(letters: &mut Letters) {
    while letters
        .next_if(|letter| letter.is_ascii_whitespace())
        .is_some()
    {}
}

fn value(letters: &mut Letters) -> Value {
    skip(letters);
    match letters.peek().unwrap() {
        '{' => Value::Object(entries(letters, '}', |letters| {
            let name = text(letters);
            skip(letters);
            assert_eq!(letters.next(), Some(':'));
            (name, value(letters))
        })),
        '[' => Value::List(entries(letters, ']', value)),
        '"' => Value::Text(text(letters)),
        _ => {
            let mut word = String::new();
            while let Some(letter) = letters.next_if(|it| it.is_alphanumeric() || *it == '-') {
                word.push(letter);
            }
            word.parse().map_or(Value::Word(word), Value::Number)
        }
    }
}

fn entries<T>(letters: &mut Letters, end: char, entry: impl Fn(&mut Letters) -> T) -> Vec<T> {
    let mut entries = Vec::new();
    letters.next();
    skip(letters);
    while letters.next_if_eq(&end).is_none() {
        if !entries.is_empty() {
            assert_eq!(letters.next(), Some(','));
        }
        skip(letters);
        entries.push(entry(letters));
        skip(letters);
    }
    entries
}

fn text(letters: &mut Letters) -> String {
    let mut text = String::new();
    assert_eq!(letters.next(), Some('"'));
    loop {
        match letters.next().unwrap() {
            '"' => return text,
            '\\' => match letters.next().unwrap() {
                'n' => text.push('\n'),
                'u' => {
                    let digits: String = letters.take(4).collect();
                    let number = u32::from_str_radix(&digits, 16).unwrap();
                    text.push(char::from_u32(number).unwrap());
                }
                letter @ ('"' | '\\') => text.push(letter),
                letter => panic!("\\{letter}"),
            },
            letter => {
                assert!(!letter.is_control());
                text.push(letter);
            }
        }
    }
}

impl Value {
    /// The value of a name, or of a place.
    fn at(&self, name: &str) -> &Value {
        match self {
            Value::Object(values) => {
                let found = values.iter().find(|(it, _)| it == name);
                &found.unwrap_or_else(|| panic!("{name} in {self:?}")).1
            }
            Value::List(values) => &values[name.parse::<usize>().unwrap()],
            _ => panic!("{self:?} has no {name}"),
        }
    }

    /// All names, however deep.
    fn names(&self, names: &mut BTreeSet<String>) {
        match self {
            Value::Object(values) => {
                for (name, value) in values {
                    names.insert(name.clone());
                    value.names(names);
                }
            }
            Value::List(values) => values.iter().for_each(|value| value.names(names)),
            _ => {}
        }
    }
}

fn number(number: i64) -> Value {
    Value::Number(number)
}

fn word(text: &str) -> Value {
    Value::Text(text.into())
}

fn document() -> String {
    let path = Path::new(env!("CARGO_MANIFEST_DIR")).join("../../docs/COMMAND.md");
    fs::read_to_string(path).unwrap()
}

/// The examples of the page are what the command writes.
#[test]
fn examples_of_the_document() {
    let directory = Directory::new("examples");
    done(run!("sample", "-o", directory.0));
    let document = document();
    let mut count = 0;
    for example in document.split("\n    $ splitter ").skip(1) {
        let mut lines = example.lines();
        let words = lines.next().unwrap().split(' ');
        let lines = lines.take_while(|line| line.starts_with("    "));
        let expected: String = lines.map(|line| format!("{}\n", &line[4..])).collect();
        let mut command = Command::new(env!("CARGO_BIN_EXE_splitter"));
        command.args(words).current_dir(&directory.0);
        let ran = Ran::of(command);
        assert_eq!(ran.out, expected);
        assert_eq!(
            parse(&ran.out).at("exit"),
            &number(ran.code.unwrap().into())
        );
        count += 1;
    }
    assert_eq!(count, 6);
}

/// Each name that the command writes is on the page, and each run tells its exit code.
#[test]
fn names_of_the_document() {
    let directory = Directory::new("names");
    let document = document();
    let mut loop_back = format1(&[100]);
    loop_back.add_link(2, 4, 0).unwrap();
    let mut stray = format1(&[100]);
    stray.add_link(0, 4, 1).unwrap();
    let few = store(&[&[1, 0, 4, 0, 1, 0], &[1, 0]], &[[0, 2, 1]]);
    let bad = store(&[&[1, 0, 4, 0, 0], &[1, 2, 7, 7]], &[[0, 2, 1]]);
    let long = store(&[&[1, 0, 4, 0, 0, 0]], &[]);
    let alone = store(&[&[1, 0, 4, 0, 0]], &[]);
    let mut ordered = format1(&[100]);
    ordered.add_order_link(0, 1).unwrap();
    let stores = [
        loop_back,
        stray,
        few,
        bad,
        long,
        alone,
        ordered,
        format1(&[30_000; 3]),
        w10(),
    ];
    let mut told = Vec::new();
    for (place, store) in stores.into_iter().enumerate() {
        let file = directory.store(&format!("{place}.krns"), store, &[0]);
        told.push(run!("plan", file, "--json"));
        told.push(run!("plan", file, "99", "--json"));
        told.push(run!("pair", file, "0", "10", "70", "--json"));
        told.push(run!("dump", file, "--json"));
        let output = directory.file("out.krns");
        told.push(run!("split", file, "-o", output, "--check", "--json"));
        told.push(run!("split", file, "-o", output, "--compact", "--json"));
        told.push(run!("compact", file, "-o", output, "--json"));
        told.push(run!(
            "compact", file, "-o", output, "--root", "99", "--json"
        ));
        let mut unsound = fs::read(&file).unwrap();
        unsound[15] += 1;
        unsound.extend([0, 0, 0, 9, 0, 0, 0, 9]);
        fs::write(&output, unsound).unwrap();
        told.push(run!("plan", output, "--json"));
    }
    let file = directory.store_of("marks.krns", marks([6; 3]), vec![Table::marks(0)]);
    told.push(run!("mark", file, "30", "60", "--json"));
    told.push(run!("mark", file, "31", "60", "--json"));
    let font = directory.file("a.ttf");
    let lookups = [
        made::lookup(2, &[made::pair_sets(), made::words(&[1, 0, 4, 0, 0])]),
        made::lookup(4, &[made::mark_table(), made::words(&[1, 0, 4])]),
    ];
    fs::write(&font, made::font(&[(b"GPOS", made::gpos(&lookups))])).unwrap();
    told.push(run!("font", font, "-o", directory.file("stores"), "--json"));
    told.push(run!("font", directory.file("none"), "--json"));

    let mut names = BTreeSet::new();
    for ran in told {
        let value = parse(&ran.out);
        assert_eq!(value.at("exit"), &number(ran.code.unwrap().into()));
        value.names(&mut names);
        let outcome = value.at("outcome");
        assert!(matches!(outcome, Value::Text(word) if document.contains(&format!("`{word}`"))));
    }
    for name in &names {
        assert!(document.contains(&format!("`{name}`")), "{name}");
    }
    assert!(names.len() > 50, "{names:?}");
}

/// Which edition it was, and of each table that comes of it whether it is within the limit, and why not.
#[test]
fn an_edition() {
    let directory = Directory::new("edition");
    let file = directory.store("a.krns", w10(), &[0]);
    let output = directory.file("b.krns");
    let result = |numbers: [i64; 4], why: Option<&str>| {
        let [table, first, items, counted] = numbers;
        let mut values = vec![
            ("table", number(table)),
            ("first", number(first)),
            ("items", number(items)),
            ("counted", number(counted)),
            ("within", Value::Word(why.is_none().to_string())),
        ];
        values.extend(why.map(|why| ("why", word(why))));
        values
    };
    let why = "edition 1 does not measure what the item at the cut shares";
    let first = vec![
        result([0, 0, 1, 40_118], None),
        result([9, 1, 2, 90_022], Some(why)),
    ];
    let why = "a single item is too large by itself";
    let second = vec![
        result([0, 0, 1, 40_118], None),
        result([9, 1, 1, 70_018], Some(why)),
        result([11, 2, 1, 20_018], None),
    ];
    let list = |results: Vec<Vec<(&str, Value)>>| {
        let object = |values: Vec<(&str, Value)>| {
            let values = values.into_iter();
            Value::Object(values.map(|(name, value)| (name.into(), value)).collect())
        };
        Value::List(results.into_iter().map(object).collect())
    };
    for (edition, mut results) in [(1, first), (2, second)] {
        let named = edition.to_string();
        let ran = run!("split", file, "--edition", named, "-o", output, "--json");
        let split = parse(&done(ran));
        assert_eq!(split.at("edition"), &number(edition));
        let told = split.at("tables").at("0").at("results");
        assert_eq!(told, &list(results.clone()));
        // Of new tables that are not there yet nobody knows the numbers.
        results.iter_mut().for_each(|values| drop(values.remove(0)));
        let plan = parse(&would_cut(run!("plan", file, "--edition", named, "--json")));
        assert_eq!(plan.at("edition"), &number(edition));
        assert_eq!(plan.at("tables").at("0").at("results"), &list(results));
    }
}

/// A refusal in numbers.
#[test]
fn a_refusal() {
    let directory = Directory::new("refusal");
    let store = store(&[&[1, 0, 4, 0, 0], &[7, 0]], &[[0, 2, 1]]);
    let file = directory.store("a.krns", store, &[0]);
    let told = parse(&run!("plan", file, "--json").out);
    let refused = told.at("tables").at("0").at("refused");
    assert_eq!(refused.at("answer"), &number(4));
    assert_eq!(refused.at("name"), &word("BadParts"));
    let fault = [
        ("kind", word("number")),
        ("place", word("bytes")),
        ("object", number(1)),
        ("part", word("coverage")),
        ("at", number(0)),
        ("number", word("format")),
        ("found", number(7)),
        ("wanted", word("1 or 2")),
    ];
    let fault = fault.map(|(name, value)| (name.to_string(), value));
    assert_eq!(refused.at("fault"), &Value::Object(fault.to_vec()));
    // A split and a reading tell the same, and one that is quiet tells it by its exit code.
    let output = directory.file("b.krns");
    let [split, pair] = [
        run!("split", file, "-o", output, "--json"),
        run!("pair", file, "1", "2", "--json"),
    ];
    for ran in [split, pair] {
        let told = parse(&ran.out);
        assert_eq!(told.at("refused"), refused);
        assert_eq!(told.at("file"), &word(file.to_str().unwrap()));
    }
    let quiet = run!("plan", file, "--quiet");
    assert_eq!(quiet.out, "");
    let why = "coverage, object 1: its format, at byte 0, is 7; it must be 1 or 2";
    refused_by(quiet, why);
}

fn refused_by(ran: Ran, why: &str) {
    refused(ran, Refusal::BadParts, why);
}

/// Stores and fonts by standard input, and a store by standard output.
#[test]
fn standard_input_and_output() {
    let directory = Directory::new("standard");
    let file = directory.store("a.krns", format1(&[30_000; 3]), &[0]);
    let output = directory.file("b.krns");
    done(run!("split", file, "-o", output));
    let whole = fs::read(&file).unwrap();
    let split = fs::read(&output).unwrap();

    let (code, out) = run_with(&["split", "-", "-o", "-"], &whole);
    assert_eq!((code, out), (Some(0), split.clone()));
    let (code, out) = run_with(&["plan", "-"], &whole);
    assert_eq!(code, Some(4));
    assert!(out.starts_with(b"standard input: 8 objects"));
    let (code, out) = run_with(&["pair", "-", "30", "70", "--json"], &split);
    assert_eq!(code, Some(0));
    let told = parse(&String::from_utf8(out).unwrap());
    assert_eq!(told.at("table"), &number(8));
    assert_eq!(told.at("file"), &word("-"));
    let (code, out) = run_with(&["font", "-"], b"no font");
    assert_eq!((code, out), (Some(3), Vec::new()));
    assert_eq!(directory.names(), ["a.krns", "b.krns"]);
}

fn run_with(words: &[&str], input: &[u8]) -> (Option<i32>, Vec<u8>) {
    let mut command = Command::new(env!("CARGO_BIN_EXE_splitter"));
    command.args(words).env("LC_ALL", "C");
    command.stdin(Stdio::piped()).stdout(Stdio::piped());
    let mut child = command.stderr(Stdio::null()).spawn().unwrap();
    child.stdin.take().unwrap().write_all(input).unwrap();
    let output = child.wait_with_output().unwrap();
    (output.status.code(), output.stdout)
}

/// Nothing is said of a split that cannot be written.
#[test]
fn a_split_is_written_before_it_is_spoken_of() {
    let directory = Directory::new("before");
    let file = directory.store("a.krns", format1(&[30_000; 3]), &[0]);
    for option in ["--ascii", "--check", "--json", "--quiet"] {
        let ran = run!("split", file, "-o", directory.file("no/b.krns"), option);
        match option {
            "--json" => assert_eq!(parse(&ran.out).at("outcome"), &word("bad file")),
            _ => assert_eq!(ran.out, ""),
        }
        failed(ran, BAD_FILE, "it cannot be written");
    }
}

/// What could change a terminal is written out in names.
#[test]
fn names_are_written_out() {
    let directory = Directory::new("escapes");
    let name = "a\x1b[2J\nb.krns";
    let file = directory.store(name, format1(&[100]), &[0]);
    let shown = "a\\u{1b}[2J\\nb.krns";
    for command in ["plan", "dump"] {
        let out = done(run!(command, file));
        assert!(out.lines().next().unwrap().contains(shown), "{out}");
    }
    let told = parse(&done(run!("plan", file, "--json")));
    assert_eq!(told.at("file"), &word(file.to_str().unwrap()));
    failed(run!("font", file), BAD_FILE, shown);
    failed(
        run!("plan", "\x1b[31m"),
        BAD_FILE,
        "\\u{1b}[31m: there is no such",
    );
    failed(run!("\x07plan"), BAD_USAGE, "no command \"\\u{7}plan\"");
    failed(run!("plan", "a", "\x07"), BAD_USAGE, "\"\\u{7}\" is none");
    failed(run!("plan", "--\x07"), BAD_USAGE, "no option --\\u{7}");
}

/// The tables of a font as store files, each of which can be worked on.
#[test]
fn a_font_as_stores() {
    let directory = Directory::new("stores");
    let font = directory.file("a.ttf");
    let lookups = [
        made::lookup(2, &[made::pair_sets(), made::pair_rows(false)]),
        made::lookup(9, &[made::extension(4, &made::mark_table())]),
    ];
    fs::write(&font, made::font(&[(b"GPOS", made::gpos(&lookups))])).unwrap();
    let stores = directory.file("stores");
    let out = done(run!("font", font, "-o", stores));
    assert!(out.contains("Wrote 3 store files to "), "{out}");
    let [sets, rows, marks] = [
        "lookup0-subtable0-pairs.krns",
        "lookup0-subtable1-pairs.krns",
        "lookup1-subtable0-marks.krns",
    ]
    .map(|name| stores.join(name));
    let pair = parse(&done(run!("pair", sets, "5", "70", "--json")));
    assert_eq!(pair.at("values").at("first").at("x_advance"), &number(-30));
    let pair = parse(&done(run!("pair", rows, "6", "70", "--json")));
    assert_eq!(pair.at("values").at("first").at("x_advance"), &number(21));
    let mark = parse(&done(run!("mark", marks, "5", "60", "--json")));
    assert_eq!(mark.at("mark_anchor").at("x"), &number(100));
    assert_eq!(mark.at("base_anchor").at("x"), &number(300));
    assert_eq!(fs::read_dir(&stores).unwrap().count(), 3);
}

/// Order-only links are shown and told as such, and nothing is shown below them.
#[test]
fn a_dump_of_order_only_links() {
    let directory = Directory::new("orders");
    let mut store = marks([6; 3]);
    let lost = store.add_object(&[0; 4]).unwrap();
    for (parent, child) in [(0, lost), (0, 5), (3, 0), (lost, lost)] {
        store.add_order_link(parent, child).unwrap();
    }
    let file = directory.store_of("a.krns", store, vec![Table::marks(0)]);
    let out = directory.named_short(&done(run!("dump", file)));
    let lines: Vec<&str> = out.lines().map(str::trim_end).collect();
    assert_eq!(
        lines[0],
        "a.krns: 10 objects, 15 links (4 order-only), 94 data bytes"
    );
    let expected = [
        "0: mark table, 12 bytes",
        "  at 2 to 1: mark coverage, 12 bytes",
        "  at 4 to 2: base coverage, 10 bytes",
        "  at 8 to 3: mark array, 18 bytes",
        "    at 4 to 5: anchor, 6 bytes",
        "    at 8 to 5: anchor, 6 bytes (above)",
        "    at 12 to 5: anchor, 6 bytes (above)",
        "    at 16 to 5: anchor, 6 bytes (above)",
        "    order-only to 0: mark table, 12 bytes",
        "  at 10 to 4: base array, 14 bytes",
        "    at 2 to 6: anchor, 6 bytes",
        "    at 4 to 7: anchor, 6 bytes",
        "    at 6 to 8: anchor, 6 bytes",
        "  order-only to 5: anchor, 6 bytes",
        "  order-only to 9: object, 4 bytes",
        "",
        "No table leads to these: 1 object",
        "  9: object, 4 bytes",
    ];
    assert_eq!(lines[2..], expected);
    let one = done(run!("dump", file, "5"));
    let links = "To it there are 5 links:\n  order-only of 0: mark table, 12 bytes\n  at       4 of 3: mark";
    assert!(one.contains(links), "{one}");

    let told = parse(&done(run!("dump", file, "--json")));
    assert_eq!(told.at("store").at("links"), &number(15));
    assert_eq!(told.at("store").at("order_only"), &number(4));
    let object = |values: &[(&str, Value)]| {
        let values = values.iter().cloned();
        Value::Object(values.map(|(name, value)| (name.into(), value)).collect())
    };
    let (offset, order_only) = (word("offset"), word("order-only"));
    let table = told.at("objects").at("0");
    let position = [
        ("kind", offset),
        ("position", number(10)),
        ("child", number(4)),
    ];
    assert_eq!(table.at("links").at("3"), &object(&position));
    let child = [("kind", order_only.clone()), ("child", number(5))];
    assert_eq!(table.at("links").at("4"), &object(&child));
    let parent = [("kind", order_only), ("parent", number(3))];
    assert_eq!(table.at("from").at("0"), &object(&parent));
}

/// Links of other kinds, in a store that is not sound.
#[test]
fn a_dump_of_unknown_links() {
    let directory = Directory::new("unknown");
    let mut store = format1(&[100]);
    store.add_order_link(2, 1).unwrap();
    let file = directory.store("a.krns", store, &[0]);
    let mut bytes = fs::read(&file).unwrap();
    let place = bytes.len() - 4 - 1;
    bytes[place] = 9;
    fs::write(&file, bytes).unwrap();
    let fault =
        "link row 3 of object 2 at position 0: its kind is 9; it must be 0 or 1, an offset or an \
                 order-only link";
    let dump = run!("dump", file);
    let tree = "  at 10 to 2: pair set, 6 bytes\n    at 0 to 3: object, 94 bytes\n    of kind 9 to 1: coverage";
    assert!(dump.out.contains(tree), "{}", dump.out);
    refused(dump, Refusal::Unsound, fault);
    let told = run!("dump", file, "1", "--json");
    let value = parse(&told.out);
    let from = value.at("objects").at("0").at("from").at("1");
    assert_eq!(from.at("kind"), &word("unknown 9"));
    let told_fault = value.at("refused").at("fault");
    assert_eq!(told_fault.at("column"), &word("kind"));
    assert_eq!(told_fault.at("link_kind"), &word("unknown 9"));
    refused(told, Refusal::Unsound, fault);
}

/// A tree from the tables, what no table leads to, and one object.
#[test]
fn a_dump() {
    let directory = Directory::new("dump");
    let mut store = marks([6; 3]);
    let lost = store.add_object(&bytes(&[1, 2])).unwrap();
    let file = directory.store_of("a.krns", store, vec![Table::marks(0)]);
    let out = done(run!("dump", file));
    let lines: Vec<&str> = out.lines().map(str::trim_end).collect();
    let expected = [
        "0: mark table, 12 bytes",
        "  at 2 to 1: mark coverage, 12 bytes",
        "  at 4 to 2: base coverage, 10 bytes",
        "  at 8 to 3: mark array, 18 bytes",
        "    at 4 to 5: anchor, 6 bytes",
        "    at 8 to 5: anchor, 6 bytes (above)",
        "    at 12 to 5: anchor, 6 bytes (above)",
        "    at 16 to 5: anchor, 6 bytes (above)",
        "  at 10 to 4: base array, 14 bytes",
        "    at 2 to 6: anchor, 6 bytes",
        "    at 4 to 7: anchor, 6 bytes",
        "    at 6 to 8: anchor, 6 bytes",
        "",
        "No table leads to these: 1 object",
        "  9: object, 4 bytes",
    ];
    assert_eq!(lines[2..], expected);
    let one = done(run!("dump", file, "5"));
    assert!(one.contains("\n5: anchor, 6 bytes\n") && one.contains("00 01 00 64 00 C8"));
    let array = done(run!("dump", file, "4"));
    assert!(array.contains("\n4: base array, 14 bytes\n  at 2 to 6: anchor, 6 bytes\n"));
    // A table that the file does not list.
    let unlisted = directory.store("b.krns", format1(&[100]), &[]);
    let tree = "\n0: pair table, 12 bytes\n  at 2 to 1: coverage, 6 bytes\n  at 10 to 2: pair set";
    assert!(done(run!("dump", unlisted, "0")).contains(tree));
    assert!(done(run!("dump", unlisted)).contains("The file lists no table. Its objects: 4"));
    assert!(one.contains("To it there are 4 links:\n  at       4 of 3: mark array"));
    assert_eq!(done(run!("dump", file, "--quiet")), "");
    let told = parse(&done(run!("dump", file, "--json")));
    let objects = told.at("objects");
    assert_eq!(
        objects.at("5").at("kinds"),
        &Value::List(vec![word("anchor")])
    );
    assert_eq!(
        objects.at("5").at("from").at("3").at("position"),
        &number(16)
    );
    assert_eq!(
        objects.at(&lost.to_string()).at("kinds"),
        &Value::List(vec![])
    );
    failed(run!("dump", file, "10"), BAD_FILE, "none of number 10");
}
