//! The independent model of tests/model: it makes random schedules, and says what must be answered.

#[path = "../../tests/model/src/file.rs"]
pub mod file;
#[path = "../../tests/model/src/group.rs"]
pub mod group;
#[path = "../../tests/model/src/random.rs"]
pub mod random;
#[path = "../../tests/model/src/rank.rs"]
pub mod rank;
#[path = "../../tests/model/src/tree.rs"]
pub mod tree;
#[path = "../../tests/model/src/triple.rs"]
pub mod triple;
