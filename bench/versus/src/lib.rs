//! The proved library beside the readers of `digarumbi_bench`: what both answer, and how long
//! they take.

pub mod area;
pub mod case_check;
pub mod difference;
pub mod inputs;
pub mod large;
pub mod look_check;
pub mod member_check;
pub mod members_check;
pub mod position_check;
pub mod repeats;
pub mod sections_check;
pub mod stored;
pub mod table_check;
pub mod tally;
pub mod text_check;
pub mod texts;
pub mod timing;
pub mod totals_check;
pub mod unit_check;
pub mod value_check;
pub mod words;
