//! What the four programs work out anew, at each newly known death and at each crash: all in which they differ.

#[derive(PartialEq)]
pub enum Anew {
    Nothing,
    /// The entries of the rank's row that ended at the dead one.
    Entries,
    /// The rank's whole row.
    OneTable,
    EveryTable,
}

/// Known when a program is compiled, so that asking costs nothing.
pub trait Mending {
    const AT_MARK: Anew;
    const AT_CRASH: Anew;
}

pub struct B;
pub struct C;
pub struct D;
pub struct E;

impl Mending for B {
    const AT_MARK: Anew = Anew::Entries;
    const AT_CRASH: Anew = Anew::Nothing;
}

impl Mending for C {
    const AT_MARK: Anew = Anew::EveryTable;
    const AT_CRASH: Anew = Anew::Nothing;
}

impl Mending for D {
    const AT_MARK: Anew = Anew::OneTable;
    const AT_CRASH: Anew = Anew::Nothing;
}

impl Mending for E {
    const AT_MARK: Anew = Anew::Entries;
    const AT_CRASH: Anew = Anew::EveryTable;
}
