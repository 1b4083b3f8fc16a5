//! How a table attaches a mark to a base.

use crate::{raw, Refusal, StoreRef};

/// The two anchors that are laid on each other where a mark is attached to a base: the objects that
/// hold them.
#[derive(Clone, Copy, Debug, PartialEq, Eq, Hash)]
pub struct Attachment {
    /// The mark's anchor.
    pub mark_anchor: u32,
    /// The base's anchor, of the mark's class.
    pub base_anchor: u32,
}

/// Reads by which anchors a MarkBasePos table attaches a mark glyph to a base glyph.
///
/// There is no attachment where the table says nothing of one of the two glyphs, where one of the two
/// anchors is missing, or where it has a format other than 1. Each call looks at the whole store first:
/// it costs as much as the store is large.
///
/// # Errors
///
/// [`Unsound`](Refusal::Unsound), [`NoTable`](Refusal::NoTable), [`BadTable`](Refusal::BadTable),
/// [`BadParts`](Refusal::BadParts) and [`FewGlyphs`](Refusal::FewGlyphs), the first that applies.
pub fn read_mark<'a>(
    store: impl Into<StoreRef<'a>>,
    table: u32,
    mark: u16,
    base: u16,
) -> Result<Option<Attachment>, Refusal> {
    let StoreRef {
        data,
        objects,
        links,
        counts,
    } = store.into();
    let (mut anchors, mut found) = ([0; 2], 0);
    let (a, f) = (&mut anchors, &mut found);
    let answer = raw::read_mark(data, objects, links, counts, table, mark, base, a, f);
    Refusal::answered(answer)?;
    // Each comes as its number plus one, and as 0 where there is none.
    let [mark_anchor, base_anchor] = anchors.map(|anchor| anchor.wrapping_sub(1));
    Ok((found == 1).then_some(Attachment {
        mark_anchor,
        base_anchor,
    }))
}
