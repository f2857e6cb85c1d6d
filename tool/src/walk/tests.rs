//! The reader that keeps the path against the library.

use digarumbi::{read_member, Look};
use digarumbi_bench::damage::damaged;
use digarumbi_bench::generate::{look_bytes, member};
use digarumbi_bench::random::Random;

use super::{walk, walk_look};

/// Both accept, or refuse with the same number at the same place.
fn same(bytes: &[u8]) {
    let library = read_member(bytes).map(drop).map_err(|no| (no.number, no.place as usize));
    let walked = walk(bytes).answer.map_err(|stop| (stop.number, stop.field.place));
    assert_eq!(walked, library, "of {} bytes", bytes.len());
}

fn same_look(bytes: &[u8]) {
    let library = Look::read(bytes).map(drop).map_err(|no| (no.number, no.place as usize));
    let walked = walk_look(bytes).map_err(|stop| (stop.number, stop.field.place));
    assert_eq!(walked, library, "of {} bytes", bytes.len());
}

fn files(folder: &str) -> Vec<Vec<u8>> {
    let folder = format!("{}/../crates/{folder}/data", env!("CARGO_MANIFEST_DIR"));
    let files = std::fs::read_dir(folder).expect("it is in the repository");
    let files: Vec<Vec<u8>> =
        files.map(|file| std::fs::read(file.unwrap().path()).expect("a file")).collect();
    assert!(files.len() > 20);
    files
}

fn stored() -> Vec<Vec<u8>> {
    files("corpus_main")
}

#[test]
fn stored_members() {
    let mut random = Random::new(1);
    for member in stored() {
        same(&member);
        for _ in 0..100 {
            same(&damaged(&member, &mut random));
        }
    }
}

#[test]
fn generated_members() {
    let mut random = Random::new(2);
    for _ in 0..1_500 {
        let member = member(&mut random).bytes;
        same(&member);
        for _ in 0..4 {
            same(&damaged(&member, &mut random));
        }
    }
}

#[test]
fn cut_members() {
    let member = &stored().into_iter().filter(|member| member.len() < 4_000).max_by_key(Vec::len);
    let member = member.as_ref().expect("one");
    (0..member.len()).for_each(|length| same(&member[..length]));
}

#[test]
fn members_at_the_largest_size() {
    let mut member = stored().swap_remove(0);
    member.resize(super::MEMBER_BYTES, 0);
    same(&member);
    member.push(0);
    same(&member);
}

#[test]
fn what_is_kept() {
    let member = include_bytes!("../../../examples/spine_18.bin");
    let kept = walk(member).kept;
    assert_eq!(kept.locale.of(member), b"en_US.ISO_8859-1:1987");
    assert_eq!(kept.charset_bytes(member), b"UTF-8");
    // also where something after it is refused
    assert_eq!(walk(&member[..member.len() - 1]).kept, kept);
}

#[test]
fn looks() {
    let mut random = Random::new(3);
    let mut looks = files("looks_main");
    looks.extend((0..300).map(|_| look_bytes(&mut random)));
    for look in looks {
        same_look(&look);
        for _ in 0..50 {
            same_look(&damaged(&look, &mut random));
        }
    }
    let look = include_bytes!("../../../examples/look_02.tlo");
    (0..look.len()).for_each(|length| same_look(&look[..length]));
}
