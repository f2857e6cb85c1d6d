//! Reads many members and looks and converts many texts by the proved library and by the independent
//! readers, and compares everything that both answer and store. Stops at the first difference and prints the input.
//!
//! Usage: differential [SEED]; the same seed gives the same inputs.

use std::env;
use std::process::ExitCode;

use digarumbi_bench::generate::{
    any_value, argument_of_value, look_bytes, member, member_with_counts,
};
use digarumbi_bench::limits::MEMBER_BYTES;
use digarumbi_bench::random::Random;
use digarumbi_bench::vectors;
use digarumbi_bench::version::Version;
use digarumbi_versus::case_check::{refused_starts, CaseCheck};
use digarumbi_versus::difference::Difference;
use digarumbi_versus::inputs::Inputs;
use digarumbi_versus::large::{
    ascending, deepest_member, member_of_strings, member_with_cells, member_with_nested_categories,
    shuffled, version_1_with_cells, version_1_with_free_bytes,
};
use digarumbi_versus::look_check::{LookCheck, Versions};
use digarumbi_versus::member_check::MemberCheck;
use digarumbi_versus::members_check;
use digarumbi_versus::position_check;
use digarumbi_versus::repeats::{members_with_repeats, CUT_BYTES};
use digarumbi_versus::sections_check;
use digarumbi_versus::stored;
use digarumbi_versus::text_check;
use digarumbi_versus::totals_check::TotalsCheck;
use digarumbi_versus::unit_check;
use digarumbi_versus::value_check::{check_numbers, ValueCheck};

/// Where the title stands in a member.
const HEADER_BYTES: usize = 39;
const GENERATED_MEMBERS: u64 = 70_000;
const GENERATED_COUNTS: u64 = 20_000;
const GENERATED_LOOKS: u64 = 25_000;
const GENERATED_VALUES: u64 = 60_000;
const GENERATED_ARGUMENTS: u64 = 20_000;
const GENERATED_STREAMS: u64 = 100_000;

/// The refusal numbers that these functions can give.
const MEMBER_NUMBERS: [u32; 14] = [1, 2, 3, 4, 5, 6, 7, 8, 9, 10, 11, 12, 13, 18];
/// Those that a member can get whose version is 1; 4 is then that of a modifier that begins 31.
const VERSION_1_NUMBERS: [u32; 15] = [0, 1, 2, 3, 4, 5, 6, 7, 8, 9, 10, 11, 12, 13, 18];
/// Those of a list of members, and of its members, accepted ones too.
const LIST_NUMBERS: [u32; 2] = [0, 26];
const LISTED_NUMBERS: [u32; 15] = [0, 1, 2, 3, 4, 5, 6, 7, 8, 9, 10, 11, 12, 13, 18];
/// Those of a Value and of an Argument. Without a count of nodes, cells or dimensions no other limit
/// than that of depth can be passed.
const VALUE_NUMBERS: [u32; 9] = [0, 1, 2, 3, 4, 5, 6, 7, 18];
/// Version 1 is without the modifiers in which 6 can be given.
const VALUE_NUMBERS_VERSION_1: [u32; 8] = [0, 1, 2, 3, 4, 5, 7, 18];
/// Those of totals: of calls for one leaf, of calls for all leaves of a dimension, and of their leaves.
const ONE_LEAF_NUMBERS: [u32; 17] = [0, 1, 2, 3, 4, 5, 6, 7, 8, 9, 10, 11, 12, 13, 18, 19, 20];
const ALL_LEAVES_NUMBERS: [u32; 17] = [0, 1, 2, 3, 4, 5, 6, 7, 8, 9, 10, 11, 12, 13, 15, 18, 19];
const LEAF_NUMBERS: [u32; 2] = [0, 20];
const LOOK_NUMBERS: [u32; 8] = [2, 3, 4, 5, 7, 11, 14, 15];
/// Those of the sections of a look, and places in files at which 29, 7 and 18 must be seen.
const SECTION_NUMBERS: [u32; 11] = [0, 2, 3, 4, 5, 7, 11, 14, 15, 18, 29];
const SECTION_PLACES: usize = 100;
const TEXT_NUMBERS: [u32; 4] = [0, 15, 24, 25];
/// Those of positions.
const POSITION_NUMBERS: [u32; 4] = [0, 7, 9, 10];
/// Those of case data: of calls, at the end, and for changed words.
const CALL_NUMBERS: [u32; 3] = [0, 7, 22];
const END_NUMBERS: [u32; 4] = [0, 7, 22, 23];
const CHANGED_NUMBERS: [u32; 5] = [0, 7, 21, 22, 23];

fn main() -> ExitCode {
    let seed = env::args().nth(1).map_or(Ok(1), |seed| seed.parse());
    match run(seed.expect("usage: differential [SEED]")) {
        Ok(()) => ExitCode::SUCCESS,
        Err(difference) => {
            println!("DIFFERENT: {difference}");
            ExitCode::FAILURE
        }
    }
}

fn run(seed: u64) -> Result<(), Difference> {
    let members = members(seed)?;
    println!("{} members: {}", members.members.total(), members.members);
    println!("{} readings of them: {}", members.readings.total(), members.readings);
    println!("{} of these with version 1: {}", members.version_1.total(), members.version_1);
    println!(
        "{} names and cells of accepted ones, {} Values inside them",
        members.values.accepted() - members.values.inside,
        members.values.inside
    );
    let lists = members_check::check(seed)?;
    println!("{} readings of lists: {}", lists.lists.total(), lists.lists);
    println!("{} readings of their members: {}", lists.members.total(), lists.members);
    let values = values(seed)?;
    println!("{} Values alone, by six versions: {}", values.values.total(), values.values);
    println!("{} of these by version 1: {}", values.version_1.total(), values.version_1);
    println!("{} Values inside them", values.inside);
    println!("the same bytes as Arguments: {}", values.arguments);
    println!("{} bits as numbers", check_numbers(seed)?);
    let totals = totals(seed)?;
    println!("{} members for totals: {}", totals.members.total(), totals.members);
    println!("{} calls for one leaf: {}", totals.one.total(), totals.one);
    println!("{} calls for all leaves of a dimension: {}", totals.all.total(), totals.all);
    println!("{} leaves of these: {}", totals.leaves.total(), totals.leaves);
    let looks = looks(seed)?;
    println!("{} looks: {}", looks.looks.total(), looks.looks);
    println!("{} rewritings of them: {}", looks.rewritten.total(), looks.rewritten);
    let Versions { old, new } = looks.versions;
    println!("{old} accepted ones of version 00, rewritten as version 02; {new} of version 02");
    let sections = sections_check::check(seed)?;
    println!("{} looks for sections: {}", sections.looks.total(), sections.looks);
    println!("{} makings of sections: {}", sections.calls.total(), sections.calls);
    println!("{} members with sections put into them", sections.put);
    println!("{} numbers as points, pixels and font sizes", unit_check::check(seed)?);
    let positions = position_check::check(seed)?;
    println!("{} positions of cells: {}", positions.positions.total(), positions.positions);
    println!("{} indexes of positions: {}", positions.indexes.total(), positions.indexes);
    let texts = text_check::check(seed)?;
    println!("{} texts to UTF-8: {}", texts.to.total(), texts.to);
    println!("{} texts from UTF-8: {}", texts.from.total(), texts.from);
    let streams = streams(seed)?;
    println!("{GENERATED_STREAMS} streams of case data, each in two ways of cutting it");
    println!("{} calls: {}", streams.calls.total(), streams.calls);
    println!("{} ends: {}", streams.ends.total(), streams.ends);
    println!("{} changed states: {}", streams.changed.total(), streams.changed);
    println!("{} starts at the limits", refused_starts()?);
    streams.calls.all_seen(&CALL_NUMBERS)?;
    streams.ends.all_seen(&END_NUMBERS)?;
    streams.changed.all_seen(&CHANGED_NUMBERS)?;
    members.readings.all_seen(&MEMBER_NUMBERS)?;
    members.version_1.all_seen(&VERSION_1_NUMBERS)?;
    lists.lists.all_seen(&LIST_NUMBERS)?;
    lists.members.all_seen(&LISTED_NUMBERS)?;
    members.values.all_forms_seen()?;
    values.values.all_seen(&VALUE_NUMBERS)?;
    values.version_1.all_seen(&VALUE_NUMBERS_VERSION_1)?;
    values.arguments.all_seen(&VALUE_NUMBERS)?;
    values.all_forms_seen()?;
    totals.one.all_seen(&ONE_LEAF_NUMBERS)?;
    totals.all.all_seen(&ALL_LEAVES_NUMBERS)?;
    totals.leaves.all_seen(&LEAF_NUMBERS)?;
    looks.rewritten.all_seen(&LOOK_NUMBERS)?;
    if old == 0 || new == 0 {
        return Err(Difference::missing("an accepted look of version 00 or 02"));
    }
    sections.calls.all_seen(&SECTION_NUMBERS)?;
    sections.seen_at_places(SECTION_PLACES)?;
    if sections.put == 0 {
        return Err(Difference::missing("a member for sections"));
    }
    positions.positions.all_seen(&POSITION_NUMBERS)?;
    positions.indexes.all_seen(&POSITION_NUMBERS)?;
    texts.to.all_seen(&TEXT_NUMBERS)?;
    texts.from.all_seen(&TEXT_NUMBERS)?;
    println!("no difference");
    Ok(())
}

fn members(seed: u64) -> Result<MemberCheck, Difference> {
    let mut inputs = Inputs::new(MemberCheck::new(seed), seed);
    for case in vectors::cases() {
        inputs.whole(&case.name, &case.bytes)?;
    }
    for (name, bytes) in large_members() {
        inputs.whole(name, &bytes)?;
    }
    for (name, bytes) in members_with_repeats() {
        for fewer in CUT_BYTES {
            inputs.whole(&format!("{name}, {fewer} fewer"), &bytes[..bytes.len() - fewer])?;
        }
    }
    inputs.stored(&stored::members())?;
    inputs.stored_cut(&stored::real_members())?;
    inputs.generated(GENERATED_MEMBERS, |random| member(random).bytes)?;
    Ok(inputs.check)
}

/// Members at the limits and past them.
fn large_members() -> Vec<(&'static str, Vec<u8>)> {
    let mut repeated = shuffled(4_096);
    repeated[4_095] = repeated[0];
    vec![
        ("4,096 cells", member_with_cells(&ascending(4_096))),
        ("4,096 cells, shuffled", member_with_cells(&shuffled(4_096))),
        ("4,096 cells, the last one repeated", member_with_cells(&repeated)),
        ("4,097 cells", member_with_cells(&ascending(4_097))),
        ("4,096 nodes", member_with_nested_categories(4_096)),
        ("4,104 nodes", member_with_nested_categories(4_104)),
        ("categories and values nested 8 deep", deepest_member()),
        ("the longest member", member_of_strings(MEMBER_BYTES)),
        ("a member one byte too long", member_of_strings(MEMBER_BYTES + 1)),
        ("version 1, 4,096 cells", version_1_with_cells(&shuffled(4_096))),
        ("version 1, a repeated cell", version_1_with_cells(&repeated)),
        ("version 1, the longest member", version_1_with_free_bytes(MEMBER_BYTES)),
        ("version 1, one byte too long", version_1_with_free_bytes(MEMBER_BYTES + 1)),
    ]
}

/// Values and Arguments that stand alone, those of every stored and hand-chosen title among them.
fn values(seed: u64) -> Result<ValueCheck, Difference> {
    let mut inputs = Inputs::new(ValueCheck::default(), seed);
    for bytes in [MEMBER_BYTES + 1, MEMBER_BYTES].map(|length| vec![0; length]) {
        inputs.whole("zeros", &bytes)?;
    }
    // The title is the Value after the Header.
    for case in vectors::cases() {
        inputs.whole(&case.name, case.bytes.get(HEADER_BYTES..).unwrap_or_default())?;
    }
    let version = |random: &mut Random| random.pick(&[Version::One, Version::Three]);
    inputs.generated(GENERATED_VALUES, |random| {
        let version = version(random);
        any_value(random, version)
    })?;
    inputs.generated(GENERATED_ARGUMENTS, |random| {
        let version = version(random);
        argument_of_value(random, version)
    })?;
    Ok(inputs.check)
}

/// Totals of members with counts, of stored ones, and of some at the limits.
fn totals(seed: u64) -> Result<TotalsCheck, Difference> {
    let mut inputs = Inputs::new(TotalsCheck::new(seed), seed);
    for case in vectors::cases() {
        inputs.whole(&case.name, &case.bytes)?;
    }
    for (name, bytes) in large_members() {
        inputs.whole(name, &bytes)?;
    }
    inputs.stored(&stored::real_members())?;
    inputs.stored_cut(&stored::real_members())?;
    inputs.generated(GENERATED_COUNTS, member_with_counts)?;
    Ok(inputs.check)
}

fn looks(seed: u64) -> Result<LookCheck, Difference> {
    let mut inputs = Inputs::new(LookCheck::default(), seed);
    inputs.stored(&stored::looks())?;
    inputs.stored_cut(&stored::looks())?;
    inputs.generated(GENERATED_LOOKS, look_bytes)?;
    Ok(inputs.check)
}

fn streams(seed: u64) -> Result<CaseCheck, Difference> {
    let mut check = CaseCheck::default();
    for number in 0..GENERATED_STREAMS {
        let mut random = Random::new(seed.wrapping_add(number << 20));
        check
            .stream(&mut random)
            .map_err(|difference| difference.with(format!("stream {number}")))?;
    }
    Ok(check)
}
