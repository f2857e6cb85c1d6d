//! Reference readers for light detail members, version 1 and 3, and binary table
//! looks, with generators of inputs for them, and a converter of text in old code
//! pages.

pub mod axes;
pub mod cases;
pub mod cells;
pub mod codepages;
pub mod contents;
pub mod cursor;
pub mod damage;
pub mod dimensions;
pub mod encode;
pub mod generate;
pub mod limits;
pub mod line;
pub mod look;
pub mod member;
pub mod members;
pub mod parts;
pub mod plain_cases;
pub mod positions;
pub mod random;
pub mod refusal;
pub mod sections;
pub mod seen;
pub mod stored_looks;
pub mod stored_streams;
pub mod stored_values;
pub mod titles;
pub mod totals;
pub mod units;
pub mod value;
pub mod vectors;
pub mod version;
