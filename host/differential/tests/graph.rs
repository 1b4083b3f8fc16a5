//! A host with a graph of its own: the oracle's stand-in graph, whose methods are the crate's, is split by
//! the proved functions, and becomes what the crate's own functions make of it.

use differential::{
    check::Split,
    compare::{reachable, reachable_marks, Node, Objects},
    damage, generate, kept_offsets, lend,
    model::answers,
    product, Archive, Call, Edition, Marks, Random,
};
use oracle::{Graph, ObjIdx, Store};
use splitter::{GraphStore, Kind, ObjectGraph, Refusal, Scratch};

const STORES: u64 = 300;

/// An object's bytes and links.
type Object = (Vec<u8>, Vec<(u32, ObjIdx)>);

/// The graph as a host's.
struct Host(Graph);

impl ObjectGraph for Host {
    type Id = ObjIdx;

    fn bytes(&self, object: ObjIdx) -> &[u8] {
        self.0.vertex_data(object).unwrap()
    }

    fn links(&self, object: ObjIdx) -> Vec<(u32, ObjIdx)> {
        self.0.links(object).collect()
    }

    fn add_object(&mut self, bytes: &[u8]) -> ObjIdx {
        self.0.add_object(bytes).unwrap()
    }

    fn set_links(&mut self, object: ObjIdx, links: &[(u32, ObjIdx)]) {
        self.0.set_links(object, links).unwrap();
    }

    fn shorten(&mut self, object: ObjIdx, bytes: &[u8]) {
        self.0.shorten(object, bytes).unwrap();
    }
}

impl Host {
    fn of(store: &Store) -> Self {
        Self(Graph::load(store).unwrap())
    }

    /// All objects, as they are numbered.
    fn objects(&self) -> Vec<Object> {
        let objects = 0..self.0.num_vertices();
        let object = |object| (self.bytes(object).to_vec(), self.links(object));
        objects.map(object).collect()
    }
}

/// All that is reachable from some tables of a kind.
fn reached<'a>(kind: Kind, objects: &'a impl Objects, tables: &[ObjIdx]) -> Vec<Node<'a>> {
    let tables: Vec<u32> = tables.iter().map(|&table| table as u32).collect();
    match kind {
        Kind::Pairs => reachable(objects, &tables),
        Kind::Marks => reachable_marks(objects, &tables),
    }
}

/// Whether the crate's text leaves something else: by its 16-bit product, or by offsets that it keeps.
fn differs_by_the_text(kind: Kind, split: &Split) -> bool {
    let (before, after) = (&split.before, &split.after);
    match kind {
        Kind::Pairs => {
            let table = answers::open(&before.store, before.table).unwrap().unwrap();
            product::shows(&table, &split.places) == Some(true)
        }
        Kind::Marks if split.places.is_empty() => false,
        Kind::Marks => {
            let text = kept_offsets::as_the_text(&before.store, &after.store, before.table);
            text.unwrap() != after.store
        }
    }
}

/// Calls of both kinds, by both editions.
fn for_each(mut check: impl FnMut(Kind, Call<u32>, Random)) {
    for (seed, edition) in (0..STORES).flat_map(|seed| Edition::ALL.map(|by| (seed, by))) {
        let mut random = Random::new(seed);
        for case in [generate::format1(seed), generate::format2(seed)] {
            let call = lend::exactly(&case.store, case.table, edition, &mut random);
            check(Kind::Pairs, call, Random::new(seed));
        }
        let case = generate::marks(seed);
        let call = lend::marks_exactly(&case.store, case.table, edition, &mut random);
        check(Kind::Marks, call, Random::new(seed));
    }
}

fn edition(call: &Call<u32>) -> splitter::Edition {
    splitter::Edition::from_number(call.edition).unwrap()
}

#[test]
fn graphs_become_what_the_crate_makes_of_them() {
    let mut scratch = Scratch::new();
    let [mut cut, mut uncut, mut differing] = [0; 3];
    for_each(|kind, call, _| {
        let (store, table) = (&call.store, call.table as ObjIdx);
        let mut host = Host::of(store);
        let before = host.objects();
        let new_tables = kind
            .split_graph(&mut host, table, edition(&call), &mut scratch)
            .unwrap();
        let tables = [&[table], &new_tables[..]].concat();
        let ours = reached(kind, &host.0, &tables);

        // As the proved function leaves the whole store.
        let split = match kind {
            Kind::Pairs => Split::by(&Archive, &call),
            Kind::Marks => Split::by(&Marks(&Archive), &call),
        };
        let of_split: Vec<ObjIdx> = split.tables().iter().map(|&it| it as ObjIdx).collect();
        assert!(ours == reached(kind, &split.after.store, &of_split));

        // As the crate's own function leaves the graph, by the first edition.
        if edition(&call) == splitter::Edition::First {
            let theirs = match kind {
                Kind::Pairs => oracle::split(store, table),
                Kind::Marks => oracle::split_markbase(store, table),
            };
            let theirs = theirs.unwrap();
            let their_tables = [&[table], &theirs.new_tables[..]].concat();
            let is_same = ours == reached(kind, &theirs.graph, &their_tables);
            assert_eq!(is_same, !differs_by_the_text(kind, &split));
            differing += usize::from(!is_same);
        }

        // No other object has changed, and none without a cut.
        for (object, (old, new)) in before.iter().zip(host.objects()).enumerate() {
            assert!(object == table && !new_tables.is_empty() || *old == new);
        }
        *match new_tables.is_empty() {
            true => &mut uncut,
            false => &mut cut,
        } += 1;
    });
    println!("cut {cut}, not cut {uncut}, otherwise by the text {differing}");
    assert!(cut > 100 && uncut > 100 && differing > 10);
}

/// A refusal is that of the library over the whole store, and changes nothing.
#[test]
fn refused_graphs_stay() {
    let mut scratch = Scratch::new();
    let mut refused = [0; 13];
    for_each(|kind, call, mut random| {
        let damages = match kind {
            Kind::Pairs => damage::all(),
            Kind::Marks => damage::marks(),
        };
        let damage = random.pick(&damages);
        let damaged = damage.apply(&call, &mut random);
        let (Some(call), 3..=5 | 7 | 11) = (damaged, damage.answers[0]) else {
            return;
        };
        let mut host = Host::of(&call.store);
        let before = host.objects();
        let split = kind.split_graph(
            &mut host,
            call.table as ObjIdx,
            edition(&call),
            &mut scratch,
        );
        let refusal = split.unwrap_err();
        assert_eq!(refusal.number(), damage.answers[0], "{}", damage.name);
        assert!(host.objects() == before);
        refused[refusal.number() as usize] += 1;
        // It can be explained over the store that was filled.
        let loaded = GraphStore::load(&host, call.table as ObjIdx).unwrap();
        assert_eq!(loaded.ids[0], call.table as ObjIdx);
        assert_eq!(kind.explain(&loaded.store, 0).refusal(), Some(refusal));
    });
    println!("{refused:?}");
    assert!([3, 4, 5, 7, 11].iter().all(|&answer| refused[answer] > 5));
}

/// Links that are no links of a table: outside their object, or two at one position.
#[test]
fn graphs_that_are_not_sound() {
    struct Odd(Vec<(u32, ObjIdx)>);

    impl ObjectGraph for Odd {
        type Id = ObjIdx;

        fn bytes(&self, _: ObjIdx) -> &[u8] {
            &[0, 1, 0, 0]
        }

        fn links(&self, object: ObjIdx) -> Vec<(u32, ObjIdx)> {
            match object {
                0 => self.0.clone(),
                _ => Vec::new(),
            }
        }

        fn add_object(&mut self, _: &[u8]) -> ObjIdx {
            unreachable!("nothing is split")
        }

        fn set_links(&mut self, _: ObjIdx, _: &[(u32, ObjIdx)]) {
            unreachable!("nothing is split")
        }

        fn shorten(&mut self, _: ObjIdx, _: &[u8]) {
            unreachable!("nothing is split")
        }
    }

    for links in [vec![(3, 1)], vec![(2, 1), (2, 2)], vec![(u32::MAX, 1)]] {
        let split = splitter::split_graph(&mut Odd(links), 0, splitter::Edition::First);
        assert_eq!(split, Err(Refusal::Unsound));
    }
    let mut many = Odd((0..70_000).map(|child| (2, child)).collect());
    assert_eq!(
        splitter::split_graph(&mut many, 0, splitter::Edition::First),
        Err(Refusal::NoRoom)
    );
}
