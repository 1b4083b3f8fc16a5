//! The attachment reading.

use super::{base_slot, mark_slot, MarkBasePos};
use crate::Attachment;

/// What a table says of a mark glyph and a base glyph.
pub fn read(marks: &MarkBasePos, mark: u16, base: u16) -> Attachment {
    let anchors = anchors(marks, mark, base);
    anchors.map_or(Attachment::default(), |anchors| Attachment {
        anchors: anchors.map(|anchor| anchor + 1),
        found: 1,
    })
}

/// The anchor objects of mark and base, if both are linked.
fn anchors(marks: &MarkBasePos, mark: u16, base: u16) -> Option<[u32; 2]> {
    let mark = marks.mark_glyphs.binary_search(&mark).ok()?;
    let base = marks.base_glyphs.binary_search(&base).ok()?;
    let &class = marks.mark_classes.get(mark)?;
    if base >= marks.base_count {
        return None;
    }
    let slot = base * marks.class_count + usize::from(class);
    let mark_anchor = marks.objects.child_at(marks.mark_array, mark_slot(mark))?;
    let base_anchor = marks.objects.child_at(marks.base_array, base_slot(slot))?;
    Some([mark_anchor, base_anchor])
}
