//! Generates accepted members and looks, with all their productions and optional parts.

mod counts;
mod field;
mod look;
mod settings;
mod table;
mod titles;
mod value;

pub use counts::member_with_counts;
pub use look::{look_bytes, look_to_write, styled_look_bytes, LookToWrite};
pub use value::{any_value, argument_of_value};

use crate::member::Answer;
use crate::random::Random;
use crate::version::Version;

/// A member, and what a reader answers and stores for it.
pub struct GeneratedMember {
    pub version: Version,
    pub bytes: Vec<u8>,
    pub answer: Answer,
    pub nodes: Vec<u32>,
    pub cells: Vec<u32>,
}

/// An accepted member of either version.
pub fn member(random: &mut Random) -> GeneratedMember {
    let version = random.pick(&[Version::One, Version::Three]);
    member_of_version(version, random)
}

/// An accepted member of this version.
pub fn member_of_version(version: Version, random: &mut Random) -> GeneratedMember {
    let mut bytes = titles::header(random, version);
    bytes.extend(titles::titles(random, version));
    bytes.extend(titles::footnotes(random, version));
    bytes.extend(settings::areas(random, version));
    bytes.extend(settings::borders(random));
    bytes.extend(settings::print_settings(random));
    bytes.extend(settings::table_settings(random, version));
    bytes.extend(settings::formats(random, version));
    let mut generated = table::append_table(bytes, version, random);
    if random.once_in(2) {
        generated.bytes.push(0x01);
    }
    generated
}
