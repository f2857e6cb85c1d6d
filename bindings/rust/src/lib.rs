//! Reads light detail members, version 1 and 3, and binary table looks (.tlo), totals the counts of
//! members ([`Table::totals`]), converts text in old code pages ([`codepage`]), and decodes
//! compressed case data as it arrives ([`Cases`]).
//!
//! The work is done by a library in which every function is proved to meet its contract. This
//! crate declares its functions ([`ffi`]), calls them on slices ([`lent`]), and turns their
//! answers into Rust types ([`read_member`], [`Value`], [`Look`]). Nothing checks these
//! declarations against the library; `bench/versus` compares what comes back with an independent
//! reader.

mod cases;
pub mod codepage;
pub mod ffi;
pub mod lent;
mod look;
mod members;
mod position;
mod refusal;
mod table;
mod total;
mod units;
mod value;
pub use members::read_members;

pub use cases::{CaseError, Cases, Element, Kind};
pub use look::{
    look_sections, rewrite_look, Area, Continuation, Frame, Look, Separator, Separators, V2Styles,
};
pub use position::Position;
pub use refusal::{refusal_text, Reason, Refusal};
pub use table::{part, read_member, Axes, Category, Cell, Dimension, Node, NodeKind, Table};
pub use total::Total;
pub use units::{font_height, Pt, Px};
pub use value::{Arguments, Value, ValueBytes, Values};
