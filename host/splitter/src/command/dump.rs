//! `splitter dump`: what is in a store, sound or not.

mod kinds;
mod tree;

use super::{
    arguments::{Dump, Name},
    failure::{refusal_in_words, Failure, What},
    files,
    json::Json,
    outcome::Outcome,
    screen::Screen,
    text::{counted, grouped, in_use, shown, wrapped},
    told,
};
use kinds::Kinds;
use splitter::{
    explain,
    store_file::{RawFile, Table},
    Kind, Link, LinkKind, Refusal, StoreRef,
};

/// So many links, objects and bytes are shown, unless all are asked for.
const MOST: usize = 24;

/// Shows the objects of a store file, or one of them.
pub fn run(request: &Dump, screen: &mut Screen) -> Result<Outcome, Failure> {
    let file = files::read_raw(&request.file)?;
    let tables = request.tables(&file)?;
    let mut store = Dumped::new(file.view(), &tables, request.all);
    if let Some(object) = request.object {
        store.take_for_table(object, request.marks);
    }
    let fault = (!store.view.is_sound()).then(|| explain(store.view, 0));
    let refused = fault
        .as_ref()
        .map(|fault| told::refused(Refusal::Unsound, fault));
    let outcome = match fault {
        Some(_) => Outcome::Refused,
        None => Outcome::Done,
    };
    let objects = match request.object {
        Some(object) if object < store.objects() => object..object + 1,
        Some(object) => return Err(not_there(request, object, store.objects())),
        None => 0..store.objects(),
    };
    let values = vec![
        ("store", told::store(store.view)),
        ("refused", refused.into()),
        ("tables", told::tables(&tables)),
        (
            "objects",
            objects.map(|it| store.told(it)).collect::<Vec<_>>().into(),
        ),
    ];
    screen.json(&told::answer(Name::Dump, outcome, &request.file, values))?;

    screen.heading(&format!("{}: {}", shown(&request.file), in_use(store.view)))?;
    if let Some(fault) = &fault {
        let words = refusal_in_words(What::Store, Refusal::Unsound, fault);
        screen.lines(&wrapped(&format!("Not sound: {words}."), 0))?;
    }
    match request.object {
        Some(object) => store.show_object(object, screen)?,
        None => store.show_tree(screen)?,
    }
    match fault {
        Some(fault) => {
            let refused = Failure::refused(What::Store, Refusal::Unsound, fault);
            Err(refused.at(&request.file))
        }
        None => Ok(outcome),
    }
}

fn not_there(request: &Dump, object: u32, objects: u32) -> Failure {
    let sentence = format!("it has {objects} objects, and none of number {object}");
    files::about(&request.file, sentence)
}

impl Dump {
    /// The tables that the file lists.
    fn tables(&self, file: &RawFile) -> Result<Vec<Table>, Failure> {
        let listed = file.tables();
        let mut tables = listed.map_err(|error| files::about(&self.file, error))?;
        if self.marks {
            tables.iter_mut().for_each(|table| table.kind = Kind::Marks);
        }
        Ok(tables)
    }
}

/// A store, what its objects are, and who leads to them.
struct Dumped<'a> {
    view: StoreRef<'a>,
    tables: &'a [Table],
    kinds: Kinds,
    /// The links of each object, and those to each. In a store that is not sound they stand anywhere.
    links: Vec<Vec<Link>>,
    from: Vec<Vec<Link>>,
    /// Whether long lists are shown whole.
    all: bool,
}

impl<'a> Dumped<'a> {
    fn new(view: StoreRef<'a>, tables: &'a [Table], all: bool) -> Self {
        let objects = view.counts()[1] as usize;
        let [mut links, mut from] = [vec![Vec::new(); objects], vec![Vec::new(); objects]];
        for link in view.links() {
            if let Some(links) = links.get_mut(link.parent as usize) {
                links.push(link);
            }
            if let Some(from) = from.get_mut(link.child as usize) {
                from.push(link);
            }
        }
        Self {
            view,
            tables,
            kinds: Kinds::of(view, &links, tables),
            links,
            from,
            all,
        }
    }

    /// Takes an object that no table leads to for a table, so that what it leads to has names.
    fn take_for_table(&mut self, number: u32, is_marks: bool) {
        if self.kinds.names(number).is_empty() {
            let kind = match is_marks {
                true => Kind::Marks,
                false => Kind::Pairs,
            };
            let table = Table { number, kind };
            self.kinds.add_table(self.view, &self.links, table);
        }
    }

    fn objects(&self) -> u32 {
        self.view.counts()[1]
    }

    /// An object's bytes; none where they lie outside the data.
    fn bytes(&self, object: u32) -> &'a [u8] {
        self.view.object(object).unwrap_or_default()
    }

    fn links_of(&self, object: u32) -> &[Link] {
        let links = self.links.get(object as usize);
        links.map_or(&[], Vec::as_slice)
    }

    fn told(&self, object: u32) -> Json {
        let links = self.links_of(object).iter();
        let links = links.map(|link| told::link(link, ("child", link.child)));
        let from = self.from[object as usize].iter();
        let from = from.map(|link| told::link(link, ("parent", link.parent)));
        let [head, tail] = self.kinds.rows[object as usize];
        Json::object([
            ("object", object.into()),
            ("kinds", Json::list(self.kinds.names(object))),
            ("head", head.into()),
            ("tail", tail.into()),
            ("length", self.bytes(object).len().into()),
            ("links", Json::list(links)),
            ("from", Json::list(from)),
        ])
    }

    /// What an object is, in words.
    fn in_words(&self, object: u32) -> String {
        let names = self.kinds.names(object);
        let name = match names.is_empty() {
            true => "object".into(),
            false => names.join(" and "),
        };
        let bytes = counted(self.bytes(object).len(), "byte");
        format!("{object}: {name}, {bytes}")
    }

    /// How many of so many are shown.
    fn some(&self, count: usize) -> usize {
        match self.all || count <= MOST {
            true => count,
            false => MOST - 1,
        }
    }

    fn more(&self, count: usize, what: &str) -> String {
        format!(".. {} (--all shows them)", counted(count, what))
    }

    fn show_object(&self, object: u32, screen: &mut Screen) -> Result<(), Failure> {
        let [head, tail] = self.kinds.rows[object as usize];
        screen.line("")?;
        self.show_from(object, &mut vec![false; self.objects() as usize], screen)?;
        screen.line("")?;
        screen.line(&format!(
            "Object {object} is {} to {} of the data.",
            grouped(head as usize),
            grouped(tail as usize),
        ))?;
        let from = &self.from[object as usize];
        let count = counted(from.len(), "link");
        screen.line(&format!(
            "To it there are {count}{}",
            if from.is_empty() { "." } else { ":" }
        ))?;
        let shown = self.some(from.len());
        for link in &from[..shown] {
            let (way, parent) = (way(link, 7), self.in_words(link.parent));
            screen.line(&format!("  {way:<10} of {parent}"))?;
        }
        self.show_rest(from.len() - shown, "more link", screen)?;
        self.show_bytes(self.bytes(object), screen)
    }

    fn show_rest(&self, count: usize, what: &str, screen: &mut Screen) -> Result<(), Failure> {
        match count {
            0 => Ok(()),
            count => screen.line(&format!("  {}", self.more(count, what))),
        }
    }

    fn show_bytes(&self, bytes: &[u8], screen: &mut Screen) -> Result<(), Failure> {
        screen.line("Its bytes:")?;
        let lines = bytes.chunks(16);
        let shown = self.some(lines.len());
        for (line, bytes) in lines.enumerate().take(shown) {
            let words: Vec<String> = bytes.iter().map(|byte| format!("{byte:02X}")).collect();
            screen.line(&format!("  {:>7}  {}", grouped(16 * line), words.join(" ")))?;
        }
        self.show_rest(bytes.len().saturating_sub(16 * shown), "more byte", screen)
    }
}

/// How a link leads from its parent: at a position, in so many columns, or by what it is.
fn way(link: &Link, columns: usize) -> String {
    match link.kind {
        LinkKind::Offset => format!("at {:>columns$}", grouped(link.position as usize)),
        LinkKind::OrderOnly => "order-only".into(),
        LinkKind::Unknown(kind) => format!("of kind {}", grouped(kind as usize)),
    }
}
