//! Where the crate's text multiplies row by columns in 16 bits.

use crate::model::{objects::Link, table::PairPos};

const WRAP: usize = 65_536;

/// Whether a split by the crate's text moves other device links than it should.
///
/// It takes record r for the one of number r modulo 65,536. So the link of a cut-off record past
/// that stays behind, and the link of a kept record goes where a cut-off one is taken for it.
/// Nothing where there is no link to move, or no product to wrap.
pub fn shows(pairpos: &PairPos, cuts: &[u16]) -> Option<bool> {
    let header = &pairpos.header;
    let kept = *cuts.first()? as usize * header.columns;
    let all = header.items * header.columns;
    let parts = header.format.offsets().len();
    let devices = &pairpos.offsets()[parts..];
    if pairpos.parts.class_defs.is_none() || devices.is_empty() || all <= WRAP {
        return None;
    }
    let record = |link: &Link| (link[1] as usize - 16) / header.record_size();
    let mut records = devices.iter().map(record);
    Some(records.any(|record| is_mistaken(record, kept, all)))
}

/// Whether the link of a record is left behind, or taken along by mistake.
fn is_mistaken(record: usize, kept: usize, all: usize) -> bool {
    if record >= kept {
        return record >= WRAP;
    }
    let first_cut_off = record + WRAP * (kept - record).div_ceil(WRAP);
    first_cut_off < all
}
