//! Reading and writing looks.

use digarumbi_bench::damage::damaged;
use digarumbi_bench::generate::{look_bytes, look_to_write};
use digarumbi_bench::look::*;
use digarumbi_bench::random::Random;
use digarumbi_bench::refusal::*;

/// Where the version stands.
const VERSION_PLACE: usize = 17;
/// Where the lengths of the class names stand if no separator is drawn, and these lengths.
const LENGTHS: [(usize, u8); 4] = [(4, 11), (38, 16), (80, 11), (110, 11)];
/// Where PVSeparatorStyle's first separator stands.
const SEPARATORS: usize = 34 + 23;
/// Where the first shading stands if no separator is drawn.
const SHADING: usize = 76 + 17 + 11;
/// Where the first AreaStyle stands if no separator is drawn.
const TITLE_STYLE: usize = 106 + 18;
/// Where the first font name's length stands if no separator is drawn.
const FONT_NAME: usize = TITLE_STYLE + 46;
/// Where V2Styles begins in the shortest file, or where it would begin.
const V2_STYLES: usize = 674;
/// Bytes of V2Styles with 002's defaults: 7 separators not drawn and 4 drawn, the continuation and
/// its length, four numbers.
const DEFAULTS: usize = 7 * 2 + 4 * 10 + 8 + 16;

/// The written file, or the refusal; checks that the output is only changed by the file.
fn write(look: &Look, names: &[u8], length: usize) -> Result<Vec<u8>, Refusal> {
    let mut out = vec![0xa5; length];
    let result = write_look(look, names, &mut out);
    let written = result.unwrap_or(0);
    assert!(out[written..].iter().all(|&byte| byte == 0xa5));
    result.map(|written| out[..written].to_vec())
}

/// A look with the shortest parts, as that version.
fn empty_look(version: u8) -> Look {
    let v2 = V2Styles {
        separators: [Separator::NotDrawn; 11],
        continuation: Continuation::Stored(Name::default()),
        ..V2Styles::default()
    };
    Look { version, v2, ..Look::default() }
}

/// A look with the longest parts; its names are 255 bytes.
fn longest_look() -> Look {
    let drawn = Separator::Drawn { color: 0x00ff_ffff, style: 1, width: 2 };
    let name = Name { place: 0, length: 255 };
    let style = AreaStyle { font_name: name, font_size: -12, ..AreaStyle::default() };
    let continuation = Continuation::Stored(name);
    let v2 = V2Styles { separators: [drawn; 11], continuation, ..V2Styles::default() };
    Look {
        version: LOOK_VERSION,
        separators1: [drawn; 4],
        separators2: [drawn; 4],
        title_style: style,
        most_areas: [(AreaColor::default(), style); 7],
        v2,
        ..Look::default()
    }
}

/// The shortest file of that version. Those of version 00 are not written, but made: they end where
/// V2Styles would begin.
fn shortest_file(version: u8) -> Vec<u8> {
    let file = write(&empty_look(LOOK_VERSION), &[], 800).unwrap();
    let length = if version == 0 { V2_STYLES } else { file.len() };
    changed(file, VERSION_PLACE, version)[..length].to_vec()
}

fn changed(mut file: Vec<u8>, place: usize, byte: u8) -> Vec<u8> {
    file[place] = byte;
    file
}

#[test]
fn lengths() {
    let length = |look: &Look| write(look, &[7; 255], 4_000).unwrap().len();
    assert_eq!(length(&empty_look(LOOK_VERSION)), 713);
    assert_eq!(length(&longest_look()), 3_160);
}

#[test]
fn the_longest_look_is_read_back() {
    let names = [7; 255];
    let file = write(&longest_look(), &names, 4_000).unwrap();
    let look = read_look(&file).unwrap();
    assert!(look.same(&file, &longest_look(), &names));
    assert_eq!(write(&look, &file, 4_000), Ok(file));
}

#[test]
fn refusals_of_the_reader() {
    let file = || shortest_file(0);
    let read = |file: Vec<u8>| read_look(&file).map_err(|refusal| (refusal.number, refusal.place));
    let refused = |number, place| Err((number, place));
    assert_eq!(read(Vec::new()), refused(2, 0));
    assert_eq!(read(changed(file(), 1, 0)), refused(3, 1));
    assert_eq!(read(changed(file(), 16, b'x')), refused(3, 6));
    assert_eq!(read(changed(file(), 6, b'x')[..16].to_vec()), refused(2, 6));
    assert_eq!(read(changed(file(), VERSION_PLACE, 1)), refused(4, VERSION_PLACE));
    assert_eq!(read(changed(file(), 22, 2)), refused(5, 22));
    assert_eq!(read(changed(file(), 23, 1)), refused(3, 23));
    assert_eq!(read(changed(file(), 29, 1)), refused(3, 26));
    assert_eq!(read(changed(file(), SEPARATORS, 2)), refused(3, SEPARATORS));
    assert_eq!(read(changed(file(), SEPARATORS + 1, 1)), refused(3, SEPARATORS + 1));
    assert_eq!(read(changed(file(), SEPARATORS + 6, 3)), refused(3, SEPARATORS + 6));
    // The separator is drawn; the following bytes become its color.
    let drawn = changed(changed(file(), SEPARATORS, 1), SEPARATORS + 5, 1);
    assert_eq!(read(drawn), refused(14, SEPARATORS + 2));
    assert_eq!(read(changed(file(), SHADING - 5, 9)), refused(14, SHADING - 8));
    assert_eq!(read(changed(file(), SHADING, 11)), refused(7, SHADING));
    assert!(read(changed(file(), SHADING, 10)).is_ok());
    assert_eq!(read(changed(file(), TITLE_STYLE + 16, 0)), refused(3, TITLE_STYLE + 16));
    assert_eq!(read(changed(file(), TITLE_STYLE + 40, 0xff)), refused(5, TITLE_STYLE + 40));
    let short = changed(file(), FONT_NAME, 5)[..FONT_NAME + 5].to_vec();
    assert_eq!(read(short), refused(2, FONT_NAME));
    assert_eq!(read([file(), vec![0]].concat()), refused(11, V2_STYLES));
    assert_eq!(read(changed(file(), VERSION_PLACE, 2)), refused(2, V2_STYLES));
    assert_eq!(read(changed(shortest_file(2), VERSION_PLACE, 0)), refused(11, V2_STYLES));
    assert_eq!(read([shortest_file(2), vec![0]].concat()), refused(11, 713));
}

/// The length is a field before the letters: a wrong one is refused whatever follows it.
#[test]
fn lengths_of_class_names() {
    let read = |file: &[u8]| read_look(file).map_err(|refusal| (refusal.number, refusal.place));
    let refused = |number, place| Err((number, place));
    for (place, length) in LENGTHS {
        let (letters, end) = (place + 2, place + 2 + usize::from(length));
        let file = shortest_file(2);
        assert_eq!(file[place..letters], [length, 0]);
        assert_eq!(read(&file[..place]), refused(2, place));
        assert_eq!(read(&file[..place + 1]), refused(2, place));
        assert_eq!(read(&file[..letters]), refused(2, letters));
        assert_eq!(read(&file[..end - 1]), refused(2, letters));
        assert_eq!(read(&changed(file.clone(), end - 1, b'x')), refused(3, letters));
        for (byte, wrong) in [(place, length - 1), (place, length + 1), (place + 1, 1)] {
            let other = changed(file.clone(), byte, wrong);
            assert_eq!(read(&other), refused(3, place));
            assert_eq!(read(&other[..letters]), refused(3, place));
            assert_eq!(read(&changed(other, letters, b'x')), refused(3, place));
        }
    }
}

#[test]
fn refusals_of_the_writer() {
    let refused = |number, place| Err(Refusal::new(number, place));
    for version in [0, 1, 3, 255] {
        assert_eq!(write(&empty_look(version), &[], 4_000), refused(4, VERSION_PLACE));
    }
    assert_eq!(write(&empty_look(LOOK_VERSION), &[], 712), refused(15, 0));
    assert!(write(&empty_look(LOOK_VERSION), &[], 713).is_ok());

    let mut look = empty_look(LOOK_VERSION);
    look.v2.separators[10] = Separator::Drawn { color: 1 << 24, style: 0, width: 0 };
    assert_eq!(write(&look, &[], 0), refused(14, V2_STYLES + 22));
    look.title_color.shading = 11;
    assert_eq!(write(&look, &[], 0), refused(7, SHADING));
    look.separators1[0] = Separator::Drawn { color: 1 << 24, style: 0, width: 0 };
    assert_eq!(write(&look, &[], 0), refused(14, SEPARATORS + 2));

    let named = |place, length| {
        let mut look = empty_look(LOOK_VERSION);
        look.title_style.font_name = Name { place, length };
        look
    };
    assert_eq!(write(&named(u32::MAX, 256), &[], 0), refused(7, FONT_NAME));
    assert_eq!(write(&named(1, 255), &[0; 255], 0), refused(2, FONT_NAME));
    assert_eq!(write(&named(u32::MAX, u32::MAX), &[0; 255], 0), refused(7, FONT_NAME));
    assert_eq!(write(&named(1, 2), &[0; 3], 715).map(|file| file.len()), Ok(715));

    let mut look = empty_look(LOOK_VERSION);
    look.v2.continuation = Continuation::Stored(Name { place: 9, length: 1 });
    assert_eq!(write(&look, &[0; 9], 0), refused(2, V2_STYLES + 22));
    // the default is inside no bytes
    look.v2.continuation = Continuation::Default;
    assert_eq!(write(&look, &[], 719), refused(15, 0));
    let file = write(&look, &[], 720).unwrap();
    assert_eq!(file[V2_STYLES + 22..][..8], *b"\x07(Cont.)");
}

#[test]
fn a_version_00_file_reads_as_version_02_with_the_defaults() {
    let look = read_look(&shortest_file(0)).unwrap();
    let solid = Separator::Drawn { color: 0, style: 0, width: 1 };
    let mut separators = [Separator::NotDrawn; 11];
    separators[1..5].copy_from_slice(&[solid; 4]);
    let v2 = V2Styles {
        separators,
        continuation: Continuation::Default,
        min_col_width: 36,
        max_col_width: 72,
        min_row_height: 36,
        max_row_height: 120,
    };
    assert_eq!((look.version, look.v2), (2, v2));
    assert_eq!(Look { v2, ..read_look(&shortest_file(2)).unwrap() }, look);
    assert_eq!((file_version(&shortest_file(0)), file_version(&shortest_file(2))), (Ok(0), Ok(2)));
}

/// The default equals the same letters at any place, and no others.
#[test]
fn looks_with_the_same_continuation() {
    let with = |continuation| {
        let mut look = empty_look(LOOK_VERSION);
        look.v2.continuation = continuation;
        look
    };
    let stored = |place, length| with(Continuation::Stored(Name { place, length }));
    let (default, names) = (with(Continuation::Default), b"((Cont.))(Cont.)");
    for place in [1, 9] {
        assert!(default.same(&[], &stored(place, 7), names));
        assert!(stored(place, 7).same(names, &default, &[]));
        assert!(stored(1, 7).same(names, &stored(place, 7), names));
    }
    assert!(!default.same(&[], &stored(0, 7), names));
    assert!(!default.same(&[], &stored(1, 8), names));
    assert!(!default.same(&[], &stored(1, 0), names));
}

/// What an accepted file is rewritten as: version 02 as it is; version 00 as a version 02 file with
/// the defaults, which reads as the same look and is rewritten as it is.
fn check_rewritten(look: &Look, file: &[u8]) {
    let old = file_version(file) == Ok(0);
    let length = file.len() + if old { DEFAULTS } else { 0 };
    assert_eq!(write(look, file, length - 1), Err(Refusal::new(15, 0)));
    let new = write(look, file, length).unwrap();
    assert_eq!(new.len(), length);
    if !old {
        assert_eq!(new, file);
        return;
    }
    assert_eq!(changed(file.to_vec(), VERSION_PLACE, 2), new[..file.len()]);
    let read = read_look(&new).unwrap();
    assert!(read.same(&new, look, file));
    assert_eq!(write(&read, &new, length), Ok(new));
}

#[test]
fn generated_files_are_rewritten() {
    for seed in 0..3_000 {
        let file = look_bytes(&mut Random::new(seed));
        check_rewritten(&read_look(&file).unwrap(), &file);
    }
}

#[test]
fn damaged_files_are_refused_or_rewritten() {
    let mut numbers = [0; 16];
    for seed in 0..30_000 {
        let mut random = Random::new(seed);
        let file = damaged(&look_bytes(&mut random), &mut random);
        match read_look(&file) {
            Ok(look) => {
                check_rewritten(&look, &file);
                numbers[0] += 1;
            }
            Err(refusal) => {
                assert!(refusal.place <= file.len());
                numbers[refusal.number as usize] += 1;
            }
        }
    }
    println!("number of looks for each refusal number: {numbers:?}");
    assert!([0, 2, 3, 4, 5, 7, 11, 14].iter().all(|&number: &usize| numbers[number] > 0));
}

#[test]
fn written_looks_read_as_the_same_look() {
    for seed in 0..3_000 {
        let generated = look_to_write(&mut Random::new(seed), false);
        let file = write(&generated.look, &generated.names, 4_000).unwrap();
        let look = read_look(&file).unwrap();
        assert!(look.same(&file, &generated.look, &generated.names), "seed {seed}");
    }
}

#[test]
fn looks_with_faults_are_refused_or_read_back() {
    let mut numbers = [0; 16];
    for seed in 0..10_000 {
        let generated = look_to_write(&mut Random::new(seed), true);
        match write(&generated.look, &generated.names, 1_300) {
            Ok(file) => {
                let look = read_look(&file).unwrap();
                assert!(look.same(&file, &generated.look, &generated.names));
                numbers[0] += 1;
            }
            Err(refusal) => numbers[refusal.number as usize] += 1,
        }
    }
    println!("number of looks for each refusal number: {numbers:?}");
    assert!([0, 2, 4, 7, 14, 15].iter().all(|&number: &usize| numbers[number] > 0));
}
