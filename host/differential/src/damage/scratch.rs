//! Scratch that is one entry short.

use super::Named;

pub const SHORT: &[Named] = &[
    ("the walk one short", |call, _| {
        call.scratch.walk.pop().map(drop)
    }),
    ("the glyph set one short", |call, _| {
        call.scratch.glyph_set.pop().map(drop)
    }),
    ("the glyphs one short", |call, _| {
        call.scratch.glyphs.pop().map(drop)
    }),
    ("the classes one short", |call, _| {
        call.scratch.classes.pop().map(drop)
    }),
    ("the cuts one short", |call, _| {
        call.scratch.cuts.pop().map(drop)
    }),
];
