//! Where a table would be cut.

use crate::{need::Need, Edition, Kind, Refusal, Scratch, StoreRef};

impl Kind {
    /// Says where a table of this kind would be cut by an edition of the rule: at which items.
    ///
    /// There are no places where the edition finds none, or the table has a format that is not split.
    ///
    /// # Errors
    ///
    /// The first [`Refusal`] that applies; scratch is never short, and there is always room.
    pub fn cut_plan<'a>(
        self,
        store: impl Into<StoreRef<'a>>,
        table: u32,
        edition: Edition,
        scratch: &mut Scratch,
    ) -> Result<Vec<u16>, Refusal> {
        let store = store.into();
        let mut places = vec![0; Need::of(self, store, table).items];
        let count = self.cut_plan_into(store, table, edition, scratch, &mut places)?;
        places.truncate(count);
        places.shrink_to_fit();
        Ok(places)
    }

    /// Says where a table of this kind would be cut, in a list that is lent, and gives how many places
    /// there are.
    ///
    /// # Errors
    ///
    /// The first [`Refusal`] that applies; scratch is never short. [`NoRoom`](Refusal::NoRoom) means
    /// that the list is too short. The list then stays as it was.
    pub fn cut_plan_into<'a>(
        self,
        store: impl Into<StoreRef<'a>>,
        table: u32,
        edition: Edition,
        scratch: &mut Scratch,
        places: &mut [u16],
    ) -> Result<usize, Refusal> {
        scratch.plan(self, store.into(), table, edition, places)
    }
}

/// Says where a PairPos table would be cut: at which pair sets of format 1, or rows of format 2.
///
/// There are no places where the edition finds none, or the table has a format other than 1 and 2.
///
/// # Errors
///
/// Those of [`Kind::cut_plan`].
pub fn cut_plan<'a>(
    store: impl Into<StoreRef<'a>>,
    table: u32,
    edition: Edition,
    scratch: &mut Scratch,
) -> Result<Vec<u16>, Refusal> {
    Kind::Pairs.cut_plan(store, table, edition, scratch)
}

/// Says where a PairPos table would be cut, in a list that is lent, and gives how many places there are.
///
/// # Errors
///
/// Those of [`Kind::cut_plan_into`].
pub fn cut_plan_into<'a>(
    store: impl Into<StoreRef<'a>>,
    table: u32,
    edition: Edition,
    scratch: &mut Scratch,
    places: &mut [u16],
) -> Result<usize, Refusal> {
    Kind::Pairs.cut_plan_into(store, table, edition, scratch, places)
}

/// Says where a MarkBasePos table would be cut: at which mark classes.
///
/// There are no places where the edition finds none, or the table has a format other than 1.
///
/// # Errors
///
/// Those of [`Kind::cut_plan`].
pub fn cut_plan_marks<'a>(
    store: impl Into<StoreRef<'a>>,
    table: u32,
    edition: Edition,
    scratch: &mut Scratch,
) -> Result<Vec<u16>, Refusal> {
    Kind::Marks.cut_plan(store, table, edition, scratch)
}

/// Says where a MarkBasePos table would be cut, in a list that is lent, and gives how many places there
/// are.
///
/// # Errors
///
/// Those of [`Kind::cut_plan_into`].
pub fn cut_plan_marks_into<'a>(
    store: impl Into<StoreRef<'a>>,
    table: u32,
    edition: Edition,
    scratch: &mut Scratch,
    places: &mut [u16],
) -> Result<usize, Refusal> {
    Kind::Marks.cut_plan_into(store, table, edition, scratch, places)
}
