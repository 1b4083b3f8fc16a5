//! What occurs among the generated stores with MarkBasePos tables.

use differential::{
    generate,
    model::{
        answers::open_marks,
        marks::{MarkBasePos, MARK_COVERAGE_POS},
        numbers::u16_at,
        objects::Link,
        opened::Opened,
        reach::Seen,
    },
};
use oracle::link;

/// Something that a store may have.
type Has = fn(&MarkBasePos) -> bool;

const CASES: &[(&str, Has)] = &[
    ("no class", |marks| marks.class_count == 0),
    ("no mark", |marks| {
        marks.class_count > 0 && marks.mark_classes.is_empty()
    }),
    ("no base", |marks| {
        marks.class_count > 0 && marks.base_count == 0
    }),
    ("a class without marks", |marks| {
        let has = |class| marks.mark_classes.contains(&(class as u16));
        !marks.mark_classes.is_empty() && !(0..marks.class_count).all(has)
    }),
    ("marks in order of their classes", |marks| {
        marks.mark_classes.len() > 2 && marks.mark_classes.is_sorted()
    }),
    ("marks in no order of their classes", |marks| {
        !marks.mark_classes.is_sorted()
    }),
    ("more mark glyphs than marks", |marks| {
        marks.mark_glyphs.len() > marks.mark_classes.len()
    }),
    ("as many mark glyphs as marks", |marks| {
        marks.mark_glyphs.len() == marks.mark_classes.len()
    }),
    ("more base glyphs than bases", |marks| {
        marks.base_glyphs.len() > marks.base_count
    }),
    ("fewer base glyphs than bases", |marks| {
        marks.base_glyphs.len() < marks.base_count
    }),
    ("a mark coverage of glyphs", |marks| {
        coverage_format(marks) == 1
    }),
    ("a mark coverage of ranges", |marks| {
        coverage_format(marks) == 2
    }),
    ("one coverage for both", |marks| {
        mark_coverage(marks) == marks.base_coverage
    }),
    ("one object as both arrays, with links", |marks| {
        marks.mark_array == marks.base_array && !links(marks, marks.mark_array).is_empty()
    }),
    ("one object as mark coverage and mark array", |marks| {
        mark_coverage(marks) == marks.mark_array
    }),
    ("an array that another object leads to", |marks| {
        let leads = |link: &&Link| link::is_offset(link) && link[3] == marks.base_array;
        let other = |link: &&Link| link[0] != marks.table;
        marks
            .objects
            .links()
            .iter()
            .filter(leads)
            .any(|link| other(&link))
    }),
    ("a full base array", |marks| {
        let slots = marks.base_count * marks.class_count;
        slots > 20 && links(marks, marks.base_array).len() == slots
    }),
    ("a sparse base array", |marks| {
        let slots = marks.base_count * marks.class_count;
        let count = links(marks, marks.base_array).len();
        count > 0 && 10 * count < slots
    }),
    ("a mark without an anchor", |marks| {
        links(marks, marks.mark_array).len() < marks.mark_classes.len()
    }),
    ("an anchor of marks and bases", |marks| {
        let of_marks = links(marks, marks.mark_array);
        let mut of_bases = links(marks, marks.base_array).iter();
        of_bases.any(|base| of_marks.iter().any(|mark| mark[3] == base[3]))
    }),
    ("an anchor of two classes", |marks| {
        let classes = (0..marks.class_count.min(2)).map(|class| marks.links_of_item(class));
        let classes: Vec<Vec<Link>> = classes.collect();
        let [first, second] = &classes[..] else {
            return false;
        };
        first.iter().any(|a| second.iter().any(|b| a[3] == b[3]))
    }),
    ("an array as an anchor", |marks| {
        let anchors = links(marks, marks.mark_array).iter();
        let arrays = [marks.mark_array, marks.base_array];
        anchors
            .map(|link| link[3])
            .any(|anchor| arrays.contains(&anchor))
    }),
    ("something deep below an anchor", |marks| {
        let anchors = links(marks, marks.mark_array).iter();
        anchors
            .map(|link| depth(marks, link[3]))
            .any(|depth| depth > 15)
    }),
    ("old offsets", |marks| {
        marks.objects.bytes(marks.base_array)[2..]
            .iter()
            .any(|&byte| byte != 0)
    }),
    ("a gap between objects", |marks| {
        let lengths = (0..marks.objects.count()).map(|i| marks.objects.bytes(i as u32).len());
        lengths.sum::<usize>() < marks.objects.data_count()
    }),
    ("anchors that are reached again and again", |marks| {
        let mut seen = Seen::nothing(marks.objects);
        let reached = seen.count(links(marks, marks.base_array));
        let direct = links(marks, marks.base_array).iter();
        let direct = direct.map(|link| marks.objects.bytes(link[3]).len());
        reached < direct.sum()
    }),
];

fn links<'a>(marks: &MarkBasePos<'a>, object: u32) -> &'a [Link] {
    marks.objects.offsets_of(object)
}

fn mark_coverage(marks: &MarkBasePos) -> u32 {
    let child = marks.objects.child_at(marks.table, MARK_COVERAGE_POS);
    child.expect("a mark coverage")
}

fn coverage_format(marks: &MarkBasePos) -> u16 {
    let bytes = marks.objects.bytes(mark_coverage(marks));
    u16_at(bytes, 0).expect("a format")
}

/// How long a way along first links is, up to 20.
fn depth(marks: &MarkBasePos, object: u32) -> usize {
    let mut way = vec![object];
    while let (Some([first, ..]), true) = (next(marks, &way), way.len() < 20) {
        way.push(first[3]);
    }
    way.len()
}

fn next<'a>(marks: &MarkBasePos<'a>, way: &[u32]) -> Option<&'a [Link]> {
    let links = links(marks, *way.last()?);
    let is_new = |link: &Link| !way.contains(&link[3]);
    links.first().is_some_and(is_new).then_some(links)
}

#[test]
fn each_case_occurs() {
    let mut counts = vec![0; CASES.len()];
    for seed in 0..1_000 {
        let case = generate::marks(seed);
        let marks = open_marks(&case.store, case.table).unwrap().unwrap();
        for ((_, has), count) in CASES.iter().zip(&mut counts) {
            *count += usize::from(has(&marks));
        }
    }
    for ((name, _), &count) in CASES.iter().zip(&counts) {
        println!("{name}: {count}");
    }
    assert!(counts.iter().all(|&count| count >= 5));
}
