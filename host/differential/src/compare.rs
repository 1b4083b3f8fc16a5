//! What is reachable from some tables, in a form that can be compared.
//!
//! Objects are renumbered in the order of a walk. What a split writes of coverage and class
//! definitions counts by its meaning, all other objects by their bytes.

use crate::model::{
    class_def, coverage,
    header::{CLASS_DEF1_POS, CLASS_DEF2_POS, COVERAGE_POS},
    marks::MARK_COVERAGE_POS,
    numbers::u16_at,
};
use oracle::{link, Graph, Store};
use std::collections::HashMap;

/// Objects with bytes and offsets. Order-only links lead nowhere: no text knows them.
pub trait Objects {
    /// An object's bytes.
    fn bytes(&self, object: u32) -> &[u8];

    /// The position of each of an object's offsets, and the object that it leads to.
    fn links(&self, object: u32) -> Vec<(u32, u32)>;
}

impl Objects for Store {
    fn bytes(&self, object: u32) -> &[u8] {
        crate::edit::bytes(self, object)
    }

    fn links(&self, object: u32) -> Vec<(u32, u32)> {
        let rows = self.links_in_use();
        let start = rows.partition_point(|row| row[0] < object);
        let is_offset = |row: &&link::Row| row[0] == object && link::is_offset(row);
        let offsets = rows[start..].iter().take_while(is_offset);
        offsets.map(|row| (row[1], row[3])).collect()
    }
}

impl Objects for Graph {
    fn bytes(&self, object: u32) -> &[u8] {
        self.vertex_data(object as usize).unwrap_or_default()
    }

    fn links(&self, object: u32) -> Vec<(u32, u32)> {
        let links = Graph::links(self, object as usize);
        links.map(|(at, child)| (at, child as u32)).collect()
    }
}

/// An object as it is compared.
#[derive(Clone, Debug, PartialEq, Eq)]
pub struct Node<'a> {
    /// What it holds.
    pub content: Content<'a>,
    /// The position of each offset, and the place of its object in the walk.
    pub links: Vec<(u32, usize)>,
}

/// What an object holds.
#[derive(Clone, Debug, PartialEq, Eq)]
pub enum Content<'a> {
    /// Bytes.
    Bytes(&'a [u8]),
    /// The covered glyphs.
    Coverage(Vec<u16>),
    /// The glyphs of classes other than 0.
    ClassDef(Vec<(u16, u16)>),
}

/// What an object is taken for.
#[derive(Clone, Copy, Debug, PartialEq, Eq, Hash)]
enum Role {
    Table,
    Coverage,
    ClassDef,
    Other,
}

/// All that is reachable from some PairPos tables, in the order of a walk that starts with them.
pub fn reachable<'a>(objects: &'a impl Objects, tables: &[u32]) -> Vec<Node<'a>> {
    walk(objects, tables, part_of_pairs)
}

/// All that is reachable from some MarkBasePos tables, in the order of a walk that starts with them.
pub fn reachable_marks<'a>(objects: &'a impl Objects, tables: &[u32]) -> Vec<Node<'a>> {
    walk(objects, tables, part_of_marks)
}

/// What the object at a position of a table is taken for.
type PartOf = fn(&[u8], u32) -> Role;

fn walk<'a>(objects: &'a impl Objects, tables: &[u32], part_of: PartOf) -> Vec<Node<'a>> {
    let mut walk: Vec<_> = tables.iter().map(|&table| (table, Role::Table)).collect();
    let places = walk.iter().enumerate().map(|(place, &node)| (node, place));
    let mut places: HashMap<_, _> = places.collect();
    let mut nodes = Vec::new();
    while let Some(&(object, role)) = walk.get(nodes.len()) {
        let bytes = objects.bytes(object);
        let mut links = Vec::new();
        for (position, child) in objects.links(object) {
            let child_role = match role {
                Role::Table => part_of(bytes, position),
                _ => Role::Other,
            };
            let node = (child, child_role);
            let place = *places.entry(node).or_insert(walk.len());
            if place == walk.len() {
                walk.push(node);
            }
            links.push((position, place));
        }
        let content = content(role, bytes);
        nodes.push(Node { content, links });
    }
    nodes
}

fn part_of_pairs(table: &[u8], position: u32) -> Role {
    let is_format2 = u16_at(table, 0) == Some(2);
    match position as usize {
        COVERAGE_POS => Role::Coverage,
        CLASS_DEF1_POS | CLASS_DEF2_POS if is_format2 => Role::ClassDef,
        _ => Role::Other,
    }
}

/// Arrays count by their bytes; so does the base coverage, which stays.
fn part_of_marks(_: &[u8], position: u32) -> Role {
    match position as usize {
        MARK_COVERAGE_POS => Role::Coverage,
        _ => Role::Other,
    }
}

/// The meaning of bytes, or the bytes themselves where they have none.
fn content(role: Role, bytes: &[u8]) -> Content<'_> {
    let meaning = match role {
        Role::Coverage => coverage::read(bytes).map(Content::Coverage),
        Role::ClassDef => {
            class_def::read(bytes).map(|class_def| Content::ClassDef(class_def.named().collect()))
        }
        Role::Table | Role::Other => None,
    };
    meaning.unwrap_or(Content::Bytes(bytes))
}
