//! The room of a split behind a compaction.

use super::Compacted;
use crate::{
    check::{ensure, Outcome},
    lend,
    model::soundness,
    Call, CompactSubject, Compaction, Random, Splits,
};
use oracle::link;

/// A split that is lent exactly what it needs, of which the store's dead objects have a part, is refused for
/// want of room; behind a compaction it is not. With one less of anything it still is.
///
/// The call is lent exactly what it needs. The roots are its table and its lookup list, or the table twice.
pub fn freed_room_is_used(
    compacts: &impl CompactSubject,
    splits: &impl Splits,
    call: &Call<u32>,
    roots: [u32; 2],
    random: &mut Random,
) -> Outcome {
    let compaction = lend::compaction_exactly(&call.store, roots.to_vec(), random);
    let compacted = Compacted::by(compacts, &compaction);
    let (used, left) = (call.store.counts, compacted.after.store.counts);
    let freed: [usize; 3] = std::array::from_fn(|of| (used[of] - left[of]) as usize);
    let need = room(call);
    let given: [usize; 3] = std::array::from_fn(|of| need[of].saturating_sub(freed[of]));

    let short = with_room(call, given);
    let expected = if given == need { 0 } else { 8 };
    let answer = splits.split(&mut short.clone());
    ensure(answer == expected, || {
        format!("answer {answer} before, not {expected}")
    })?;
    let answer = behind(compacts, splits, &short, roots)?;
    ensure(answer == 0, || {
        format!("answer {answer} with what was freed")
    })?;
    let of = random.below(3);
    if given[of] > 0 {
        let mut given = given;
        given[of] -= 1;
        let answer = behind(compacts, splits, &with_room(call, given), roots)?;
        ensure(answer == 8, || format!("answer {answer} with one less"))?;
    }
    Ok(())
}

/// The room that a call is lent.
fn room(call: &Call<u32>) -> [usize; 3] {
    let (lent, used) = (soundness::room(&call.store), call.store.counts);
    std::array::from_fn(|of| lent[of] - used[of] as usize)
}

/// The same call with less room.
fn with_room(call: &Call<u32>, room: [usize; 3]) -> Call<u32> {
    let mut call = call.clone();
    let [data, objects, links] =
        std::array::from_fn(|of| call.store.counts[of] as usize + room[of]);
    call.store.data.truncate(data);
    call.store.objects.truncate(2 * objects);
    call.store.links.truncate(link::NUMBERS * links);
    call
}

/// What a call answers once its store is compacted.
fn behind(
    compacts: &impl CompactSubject,
    splits: &impl Splits,
    call: &Call<u32>,
    roots: [u32; 2],
) -> Result<u32, String> {
    let mut compaction = Compaction {
        store: call.store.clone(),
        roots: roots.to_vec(),
        walk: vec![7; 2 * call.store.counts[1] as usize],
        moved: 7,
    };
    let answer = compacts.compact(&mut compaction);
    ensure(answer == 0, || format!("answer {answer} of the compaction"))?;
    let mut split = Call {
        store: compaction.store,
        table: compaction.roots[0],
        lookup_list: compaction.roots[1],
        ..call.clone()
    };
    Ok(splits.split(&mut split))
}
