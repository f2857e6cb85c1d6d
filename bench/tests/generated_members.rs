//! Generated members: accepted ones give the records they were made from.

use digarumbi_bench::damage::damaged;
use digarumbi_bench::generate::{member, member_with_counts, GeneratedMember};
use digarumbi_bench::member::{read_member, section_ends, Answer, CELL_WORDS, NODE_WORDS};
use digarumbi_bench::random::Random;
use digarumbi_bench::refusal::VERSION;
use digarumbi_bench::totals::{total, totals};
use digarumbi_bench::version::Version;

const UNTOUCHED: u32 = 0x5555_aaaa;

#[test]
fn generated_members_are_accepted() {
    for seed in 0..3_000 {
        let generated = member(&mut Random::new(seed));
        let mut nodes = vec![UNTOUCHED; generated.nodes.len() + 1];
        let mut cells = vec![UNTOUCHED; generated.cells.len() + 1];
        let answer = read_member(&generated.bytes, &mut nodes, &mut cells);
        assert_eq!(answer, generated.answer, "seed {seed}");
        assert_eq!(nodes.pop(), Some(UNTOUCHED));
        assert_eq!(cells.pop(), Some(UNTOUCHED));
        assert_eq!((nodes, cells), (generated.nodes, generated.cells), "seed {seed}");
    }
}

/// Half of the members are of version 1, and these have all that version 3 has not.
#[test]
fn both_versions_are_generated() {
    let members: Vec<_> = (0..3_000).map(|seed| member(&mut Random::new(seed))).collect();
    let ones: Vec<_> = members.iter().filter(|member| member.version == Version::One).collect();
    assert!((1_200..1_800).contains(&ones.len()));
    assert!(members
        .iter()
        .all(|member| member.bytes[2..6] == member.version.number().to_le_bytes()));
    let zeros = |member: &&GeneratedMember, place: u32| {
        member.bytes[place as usize..].iter().take_while(|&&byte| byte == 0).count()
    };
    for number in 0..=5 {
        let cell = |member: &&&GeneratedMember| {
            member.cells.chunks(CELL_WORDS).any(|cell| zeros(member, cell[1]) == number)
        };
        assert!(ones.iter().any(|member| cell(&member)), "a cell after {number} zeros");
    }
    // The regions of TableSettings and Formats, by the places after the sections before them.
    let region = |member: &GeneratedMember, section: usize| {
        let (ends, _) = section_ends(&member.bytes);
        ends[section] - ends[section - 1]
    };
    let settings: Vec<usize> = ones.iter().map(|member| region(member, 6) - 4).collect();
    assert!(settings.iter().any(|&length| length > 100));
    assert!((0..=3).all(|length| settings.contains(&length)));
    let formats_empty = |member: &&&GeneratedMember| {
        let (ends, _) = section_ends(&member.bytes);
        member.bytes[ends[7] - 4..ends[7]] == [0; 4]
    };
    let empty = ones.iter().filter(formats_empty).count();
    assert!(0 < empty && empty < ones.len());
}

/// Members with counts are accepted, with leaves that have a total and with ones that have none; all
/// leaves at once get the same as one by one, and where no cell is refused the sums are the same.
#[test]
fn totals_of_members_with_counts() {
    let (mut with_total, mut without, mut same_sums) = (0, 0, 0);
    for seed in 0..2_000 {
        let bytes = member_with_counts(&mut Random::new(seed));
        let (mut nodes, mut cells) = (vec![0; NODE_WORDS * 400], vec![0; CELL_WORDS * 24]);
        let answer = read_member(&bytes, &mut nodes, &mut cells);
        assert_eq!(answer.refusal, 0, "seed {seed}");
        let mut sums = Vec::new();
        for dimension in 0..answer.dimension_count {
            let all = totals(&bytes, dimension, 400, &mut nodes, &mut cells).expect("totals").found;
            assert_eq!(all.len(), answer.dimensions[dimension as usize].leaves as usize);
            for (leaf, expected) in all.iter().enumerate() {
                let one = total(&bytes, dimension, leaf as u32, &mut nodes, &mut cells);
                let one = one.map(|found| found.found).map_err(|refused| refused.refusal);
                assert_eq!(one, *expected, "seed {seed}");
            }
            let good = all.iter().flatten();
            with_total += good.clone().filter(|total| total.numbers > 1).count();
            without += all.len() - good.clone().count();
            sums.push(all.iter().all(Result::is_ok).then(|| good.map(|t| t.total).sum::<u64>()));
        }
        if let [Some(first), _, ..] = sums[..] {
            assert!(sums.iter().all(|&sum| sum == Some(first)), "seed {seed}");
            same_sums += usize::from(first > 0);
        }
    }
    assert!(with_total > 1_000 && without > 500 && same_sums > 300);
}

#[test]
fn a_cut_member_is_refused() {
    for seed in 0..40 {
        let bytes = member(&mut Random::new(seed)).bytes;
        let final_01 = read_member(&bytes[..bytes.len() - 1], &mut [0; 30_000], &mut [0; 13_000]);
        let shortest = bytes.len() - usize::from(final_01.refusal == 0);
        for length in 0..shortest {
            let answer = read_member(&bytes[..length], &mut [], &mut []);
            assert!(answer.refusal != 0 && answer.place as usize <= length, "seed {seed}");
        }
    }
}

/// Checks what holds of every refusal.
fn check_refusal(bytes: &[u8], answer: &Answer) {
    let only = Answer { refusal: answer.refusal, place: answer.place, ..Answer::default() };
    assert_eq!(*answer, only);
    assert!((2..=11).contains(&answer.refusal) || answer.refusal == 18);
    assert!(answer.place as usize <= bytes.len());
    if let (_, Some(refusal)) = section_ends(bytes) {
        assert_eq!((refusal.number, refusal.place as u32), (answer.refusal, answer.place));
    }
}

#[test]
fn damaged_members_leave_the_areas_when_refused() {
    let mut numbers = [0; 19];
    let mut long_value_mods = 0;
    for seed in 0..20_000 {
        let mut random = Random::new(seed);
        let bytes = damaged(&member(&mut random).bytes, &mut random);
        let mut nodes = vec![UNTOUCHED; NODE_WORDS * 4_096];
        let mut cells = vec![UNTOUCHED; CELL_WORDS * 4_096];
        let answer = read_member(&bytes, &mut nodes, &mut cells);
        numbers[answer.refusal as usize] += 1;
        long_value_mods += u32::from(answer.refusal == VERSION && answer.place > 2);
        if answer.refusal != 0 {
            check_refusal(&bytes, &answer);
            assert!(nodes.iter().chain(&cells).all(|&word| word == UNTOUCHED));
        }
    }
    println!("number of members for each refusal number: {numbers:?}");
    assert!((2..=11).chain([18]).all(|number| numbers[number] > 0));
    assert!(long_value_mods > 0);
}
