//! The host library over generated stores: what it lends is enough, and what it gives is the model's.

use differential::{
    check::Split,
    compare::Objects,
    damage::{self, Damage},
    generate::{self, Case},
    lend,
    model::lookups::applied::Subtables,
    Attachment, Call, Edition, InLookups, LookupSubject, MarkSubject, Marks, Model, Pair, Random,
    Scratch, Splits, Subject,
};
use oracle::{link, Store};
use splitter::{
    apply_lookup, read_mark, read_pair, split_in_lookups, Kind, Lookup, PairValues, Refusal,
    StoreRef, Values,
};

const STORES: u64 = 600;

/// Stores that are damaged, each in every way, and in so many ways at random.
const DAMAGED: u64 = 40;
const SCRAMBLES: usize = 60;

/// A kind of table, and what belongs to it.
struct Tables {
    kind: Kind,
    generate: &'static [fn(u64) -> Case],
    exactly: fn(&Store, u32, Edition, &mut Random) -> Call<u32>,
    damages: fn() -> Vec<Damage>,
    plan: fn(&mut Call<u16>) -> u32,
    split: fn(&Call<u32>) -> Split,
}

const TABLES: [Tables; 2] = [
    Tables {
        kind: Kind::Pairs,
        generate: &[generate::format1, generate::format2],
        exactly: lend::exactly,
        damages: damage::all,
        plan: |call| Model.plan(call),
        split: |call| Split::by(&Model, call),
    },
    Tables {
        kind: Kind::Marks,
        generate: &[generate::marks],
        exactly: lend::marks_exactly,
        damages: damage::marks,
        plan: |call| Marks(&Model).plan(call),
        split: |call| Split::by(&Marks(&Model), call),
    },
];

impl Tables {
    fn cases(&self, seeds: u64) -> impl Iterator<Item = Case> + '_ {
        (0..seeds).flat_map(|seed| self.generate.iter().map(move |generate| generate(seed)))
    }

    fn call(&self, case: &Case, edition: Edition, random: &mut Random) -> Call<u32> {
        (self.exactly)(&case.store, case.table, edition, random)
    }

    /// What the model plans with all the scratch and list that any table may need.
    fn model_plan(&self, call: &Call<u32>) -> (u32, Vec<u16>) {
        let mut plan = call.to_plan();
        plan.scratch = Scratch {
            walk: vec![1; 131_072],
            glyph_set: vec![1; 8_192],
            glyphs: vec![1; 65_536],
            classes: vec![1; 65_536],
            cuts: vec![1; 65_535],
        };
        plan.list = vec![0; 65_535];
        let answer = (self.plan)(&mut plan);
        plan.list.truncate(plan.count as usize);
        (answer, plan.list)
    }

    /// Whether a split is refused, as the model refuses it. The store then stays.
    fn is_refused(&self, call: &Call<u32>, scratch: &mut splitter::Scratch) -> bool {
        let (answer, places) = self.model_plan(call);
        let Some(edition) = splitter::Edition::from_number(call.edition) else {
            return answer == 12;
        };
        let mut store = owned(&call.store);
        match self.kind.split(&mut store, call.table, edition, scratch) {
            Ok(new_tables) => assert_eq!((0, new_tables.len()), (answer, places.len())),
            Err(refusal) => {
                assert_eq!(refusal.number(), answer);
                assert_eq!(store, owned(&call.store));
            }
        }
        answer != 0
    }

    fn assert_planned(&self, call: &Call<u32>, scratch: &mut splitter::Scratch, name: &str) {
        let (answer, places) = self.model_plan(call);
        let Some(edition) = splitter::Edition::from_number(call.edition) else {
            assert_eq!(answer, 12, "{name}");
            return;
        };
        let store = lent(&call.store);
        match self.kind.cut_plan(store, call.table, edition, scratch) {
            Ok(ours) => assert_eq!((0, ours), (answer, places), "{name}"),
            Err(refusal) => assert_eq!(refusal.number(), answer, "{name}"),
        }
    }
}

fn any_edition(random: &mut Random) -> Edition {
    random.pick(&Edition::ALL)
}

fn lent(store: &Store) -> StoreRef<'_> {
    StoreRef::new(&store.data, &store.objects, &store.links, &store.counts)
}

/// One scratch serves them all, and grows as it must.
#[test]
fn plans() {
    let mut scratch = splitter::Scratch::new();
    for tables in TABLES {
        for case in tables.cases(STORES) {
            for edition in Edition::ALL {
                let call = tables.call(&case, edition, &mut Random::new(0));
                tables.assert_planned(&call, &mut scratch, "");
                tables.assert_planned(&call, &mut splitter::Scratch::new(), "");
            }
        }
    }
}

#[test]
fn plans_of_damaged_stores() {
    let mut scratch = splitter::Scratch::new();
    for tables in TABLES {
        let damages = (tables.damages)();
        for case in tables.cases(DAMAGED) {
            let mut random = Random::new(case.table.into());
            let call = tables.call(&case, any_edition(&mut random), &mut random);
            for damage in &damages {
                if let Some(call) = damage.apply(&call, &mut random) {
                    tables.assert_planned(&call, &mut scratch, damage.name);
                }
            }
            for _ in 0..SCRAMBLES {
                let call = damage::scramble(&call, &mut random);
                tables.assert_planned(&call, &mut scratch, "scrambled");
            }
        }
    }
}

fn owned(store: &Store) -> splitter::Store {
    let Store {
        data,
        objects,
        links,
        counts,
    } = store.clone();
    splitter::Store::from_parts(data, objects, links, counts).unwrap()
}

/// All that is in use.
fn in_use(store: splitter::Store) -> Store {
    let (mut data, mut objects, mut links, counts) = store.into_parts();
    data.truncate(counts[0] as usize);
    objects.truncate(2 * counts[1] as usize);
    links.truncate(link::NUMBERS * counts[2] as usize);
    Store {
        data,
        objects,
        links,
        counts,
    }
}

/// Stores without room grow, and are then the model's.
#[test]
fn splits() {
    let mut scratch = splitter::Scratch::new();
    for (tables, edition) in TABLES.iter().flat_map(|it| Edition::ALL.map(|by| (it, by))) {
        let cut = tables.cases(STORES).filter(|case| {
            let call = tables.call(case, edition, &mut Random::new(0));
            let model = (tables.split)(&call);
            assert_split(tables.kind, case, &model, &mut scratch);
            !model.places.is_empty()
        });
        let cut = cut.count();
        println!("{:?} by {edition:?}: {cut} cut", tables.kind);
        assert!(cut > 250);
    }
}

/// The store is split as by the model, and grows where it is cut.
fn assert_split(kind: Kind, case: &Case, model: &Split, scratch: &mut splitter::Scratch) {
    let edition = splitter::Edition::from_number(model.before.edition).unwrap();
    let mut store = owned(&case.store);
    let mut list = vec![0; model.places.len()];
    let answer = kind.split_into(&mut store, case.table, edition, scratch, &mut list);
    if !model.places.is_empty() {
        assert_eq!(answer, Err(Refusal::NoRoom));
    }
    assert_eq!(in_use(store.clone()), case.store);
    let new_tables = kind.split(&mut store, case.table, edition, scratch);
    assert_eq!(new_tables.as_deref(), Ok(model.new_tables()));
    assert!(store.view().is_sound());
    assert_eq!(in_use(store), model.after.store);
}

/// Damaged stores that are sound are refused, and stay; or they are split.
#[test]
fn splits_of_damaged_stores() {
    let mut scratch = splitter::Scratch::new();
    for tables in TABLES {
        let mut refused = 0;
        for case in tables.cases(DAMAGED) {
            let mut random = Random::new(case.table.into());
            let call = tables.call(&case, any_edition(&mut random), &mut random);
            for _ in 0..SCRAMBLES {
                let mut call = damage::scramble(&call, &mut random);
                if !lent(&call.store).is_sound() {
                    continue;
                }
                call.store = in_use(owned(&call.store));
                refused += usize::from(tables.is_refused(&call, &mut scratch));
            }
        }
        assert!(refused > 250);
    }
}

/// The library's names for the sixteen numbers.
#[test]
fn values_have_their_names() {
    let (mut found, mut devices) = (0, 0);
    for case in TABLES[0].cases(STORES) {
        for (first, second) in (0..40).map(|glyph| (7 * glyph, 3 * glyph % 11)) {
            let mut pair = Pair::default();
            Model.read_pair(&case.store, case.table, [first, second], &mut pair);
            let read = read_pair(lent(&case.store), case.table, first, second).unwrap();
            assert_eq!(read.is_some(), pair.found == 1);
            assert_eq!(read.map_or([0; 16], numbers), pair.values);
            found += usize::from(read.is_some());
            devices += usize::from(pair.values[4..8].iter().any(|&number| number > 0));
        }
    }
    println!("pairs found {found}, with devices {devices}");
    assert!(found > 1_000 && devices > 10);
}

/// The library's names for the two anchors.
#[test]
fn anchors_have_their_names() {
    let mut found = 0;
    for case in TABLES[1].cases(STORES) {
        let marks = differential::model::answers::open_marks(&case.store, case.table);
        let marks = marks.unwrap().unwrap();
        for (&mark, &base) in marks.mark_glyphs.iter().zip(marks.base_glyphs.iter().rev()) {
            let mut theirs = Attachment::default();
            Model.read_mark(&case.store, case.table, [mark, base], &mut theirs);
            let ours = read_mark(lent(&case.store), case.table, mark, base).unwrap();
            let anchors = ours.map_or([0; 2], |it| [it.mark_anchor + 1, it.base_anchor + 1]);
            assert_eq!(
                (ours.is_some(), anchors),
                (theirs.found == 1, theirs.anchors)
            );
            found += theirs.found;
        }
    }
    println!("attachments found {found}");
    assert!(found > 500);
}

/// Stores without room grow, and are then the model's, lookups and all.
#[test]
fn splits_in_lookups() {
    let mut scratch = splitter::Scratch::new();
    let mut cut = 0;
    for seed in 0..300 {
        let case = generate::lookups(seed);
        let edition = Edition::ALL[seed as usize % 2];
        let call = lend::in_lookups_exactly(&case, edition, &mut Random::new(0));
        let model = Split::by(&InLookups(&Model), &call);
        let edition = splitter::Edition::from_number(call.edition).unwrap();
        let mut store = owned(&case.store);
        let (list, table) = (case.list, case.table);
        let new_tables = split_in_lookups(&mut store, list, table, edition, &mut scratch);
        assert_eq!(new_tables.as_deref(), Ok(model.new_tables()));
        assert!(store.view().is_sound());
        let room = store.room();
        assert_eq!(in_use(store), model.after.store);
        if !model.places.is_empty() {
            // Of objects and links no more than is needed.
            assert_eq!([room.objects, room.links], [0; 2]);
            cut += 1;
        }
    }
    assert!(cut > 100);
}

/// Damaged stores that are sound are refused, and stay; or they are split.
#[test]
fn splits_in_lookups_of_damaged_stores() {
    let mut scratch = splitter::Scratch::new();
    let (mut refused, mut entered) = (0, 0);
    for case in (0..DAMAGED).map(generate::lookups) {
        let mut random = Random::new(case.table.into());
        let call = lend::in_lookups_exactly(&case, any_edition(&mut random), &mut random);
        for _ in 0..SCRAMBLES {
            let call = damage::scramble_lookups(&call, &mut random);
            if !lent(&call.store).is_sound() {
                continue;
            }
            let with_room = enough(&call);
            let mut model = with_room.clone();
            let answer = Model.split_in_lookups(&mut model);
            let Some(edition) = splitter::Edition::from_number(call.edition) else {
                assert_eq!(answer, 12);
                continue;
            };
            let (list, table) = (call.lookup_list, call.table);
            let mut store = owned(&call.store);
            match split_in_lookups(&mut store, list, table, edition, &mut scratch) {
                Ok(new_tables) => {
                    assert_eq!((0, model.count as usize), (answer, new_tables.len()));
                    assert_eq!(in_use(store), in_use(owned(&model.store)));
                    entered += 1;
                }
                Err(refusal) => {
                    assert_eq!(refusal.number(), answer);
                    assert_eq!(store, owned(&call.store));
                    refused += 1;
                }
            }
        }
    }
    assert!(refused > 250 && entered > 250, "{refused}, {entered}");
}

/// The same call with far more room and scratch than it needs.
fn enough(call: &Call<u32>) -> Call<u32> {
    let mut call = call.clone();
    call.store.data.resize(call.store.data.len() + 1_000_000, 0);
    call.store.objects.resize(131_072, 0);
    call.store.links.resize(link::NUMBERS * 262_144, 0);
    call.scratch = Scratch {
        walk: vec![1; 131_072],
        glyph_set: vec![1; 8_192],
        glyphs: vec![1; 65_536],
        classes: vec![1; 65_536],
        cuts: vec![1; 65_535],
    };
    call.list = vec![0; 65_535];
    call
}

/// Lookups of every type, applied over pair readings.
#[test]
fn lookups_are_applied() {
    let (mut found, mut others) = (0, 0);
    for case in (0..120).map(generate::lookups) {
        let lookups = case.store.links(case.list).into_iter().take(4);
        for (_, lookup) in lookups {
            let subtables = Subtables::of(&case.store, lookup).unwrap();
            let read = Lookup::read(lent(&case.store), lookup).unwrap();
            assert!(read.subtables().eq(subtables.numbers().iter().copied()));
            let tables = subtables.readable().take(3);
            let firsts = tables.filter_map(|table| table.parts.glyphs.first());
            for (first, second) in firsts.flat_map(|&first| (0..8).map(move |it| (first, it))) {
                let theirs = match read.lookup_type {
                    2 => subtables.apply([first, second]),
                    _ => Pair::default(),
                };
                let ours = apply_lookup(lent(&case.store), lookup, first, second).unwrap();
                assert_eq!(ours.is_some(), theirs.found == 1);
                assert_eq!(ours.map_or([0; 16], numbers), theirs.values);
                found += theirs.found;
            }
            others += usize::from(read.lookup_type != 2);
        }
    }
    println!("pairs found {found}, lookups of other types {others}");
    assert!(found > 1_000 && others > 40);
}

fn numbers(pair: PairValues) -> [i32; 16] {
    let mut values = [0; 16];
    values[..8].copy_from_slice(&of_one(pair.first));
    values[8..].copy_from_slice(&of_one(pair.second));
    values
}

fn of_one(values: Values) -> [i32; 8] {
    let device = |object: Option<u32>| object.map_or(0, |object| object as i32 + 1);
    [
        values.x_placement.into(),
        values.y_placement.into(),
        values.x_advance.into(),
        values.y_advance.into(),
        device(values.x_placement_device),
        device(values.y_placement_device),
        device(values.x_advance_device),
        device(values.y_advance_device),
    ]
}
