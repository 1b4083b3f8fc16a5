//! The objects of a store as a tree from its tables.

use super::{way, Dumped, Failure, Screen};
use crate::command::text::{counted, wrapped};
use splitter::Link;

/// No deeper level is set further in.
const DEEPEST: usize = 12;

impl Dumped<'_> {
    /// Shows all that the tables lead to, each object once, and what nothing leads to.
    pub(super) fn show_tree(&self, screen: &mut Screen) -> Result<(), Failure> {
        let mut seen = vec![false; self.objects() as usize];
        for table in self.tables {
            screen.line("")?;
            self.show_from(table.number, &mut seen, screen)?;
        }
        let reached = self.reached();
        let unseen = (0..self.objects()).filter(|&object| !reached[object as usize]);
        let unseen: Vec<u32> = unseen.collect();
        if !unseen.is_empty() {
            screen.line("")?;
            self.show_unseen(&unseen, screen)?;
        }
        Ok(())
    }

    /// Whether tables lead to each object, however far.
    fn reached(&self) -> Vec<bool> {
        let mut reached = vec![false; self.objects() as usize];
        let mut next: Vec<u32> = self.tables.iter().map(|table| table.number).collect();
        while let Some(object) = next.pop() {
            if let Some(reached @ false) = reached.get_mut(object as usize) {
                *reached = true;
                let offsets = self.links_of(object).iter().filter(|link| link.is_offset());
                next.extend(offsets.map(|link| link.child));
            }
        }
        reached
    }

    fn show_unseen(&self, unseen: &[u32], screen: &mut Screen) -> Result<(), Failure> {
        let what = match self.tables.is_empty() {
            true => "The file lists no table. Its objects",
            false => "No table leads to these",
        };
        screen.line(&format!("{what}: {}", counted(unseen.len(), "object")))?;
        let shown = self.some(unseen.len());
        for &object in &unseen[..shown] {
            screen.line(&format!("  {}", self.in_words(object)))?;
        }
        self.show_rest(unseen.len() - shown, "more object", screen)
    }

    /// Shows an object, and below it what it leads to. What was shown above is only named, and so is what
    /// an order-only link leads to.
    pub(super) fn show_from(
        &self,
        table: u32,
        seen: &mut [bool],
        screen: &mut Screen,
    ) -> Result<(), Failure> {
        let mut levels = Vec::new();
        self.enter("", table, &mut levels, seen, screen)?;
        while let Some(level) = levels.last_mut() {
            let Some(link) = level.links.next() else {
                let rest = level.rest;
                let depth = levels.len();
                levels.pop();
                if rest > 0 {
                    let more = self.more(rest, "more link");
                    screen.line(&format!("{}{more}", indent(depth)))?;
                }
                continue;
            };
            let way = format!("{} to ", way(link, 0));
            match link.is_offset() {
                true => self.enter(&way, link.child, &mut levels, seen, screen)?,
                false => self.name(&way, link.child, levels.len(), screen)?,
            }
        }
        Ok(())
    }

    fn enter<'s>(
        &'s self,
        way: &str,
        object: u32,
        levels: &mut Vec<Level<'s>>,
        seen: &mut [bool],
        screen: &mut Screen,
    ) -> Result<(), Failure> {
        let Some(seen) = seen.get_mut(object as usize) else {
            return self.name(way, object, levels.len(), screen);
        };
        let words = format!("{way}{}", self.in_words(object));
        let start = indent(levels.len());
        if std::mem::replace(seen, true) {
            return screen.line(&format!("{start}{words} (above)"));
        }
        for line in wrapped(&words, start.len()) {
            screen.line(&line)?;
        }
        let links = self.links_of(object);
        let shown = self.some(links.len());
        levels.push(Level {
            rest: links.len() - shown,
            links: links[..shown].iter(),
        });
        Ok(())
    }

    /// Names an object, and does not go on to what it leads to.
    fn name(
        &self,
        way: &str,
        object: u32,
        depth: usize,
        screen: &mut Screen,
    ) -> Result<(), Failure> {
        let not_in_use = match object < self.objects() {
            true => "",
            false => ", which is not in use",
        };
        let (start, words) = (indent(depth), self.in_words(object));
        screen.line(&format!("{start}{way}{words}{not_in_use}"))
    }
}

/// What is still to be shown of an object's links.
struct Level<'a> {
    links: std::slice::Iter<'a, Link>,
    /// How many are left out.
    rest: usize,
}

fn indent(depth: usize) -> String {
    "  ".repeat(depth.min(DEEPEST))
}
