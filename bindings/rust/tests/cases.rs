//! Compressed case data through the bindings.

use std::io::{self, Read};

use digarumbi::{lent, CaseError, Cases, Element, Kind};
use Element::{Number, String as Text};
use Kind::{Numeric, String};

/// Gives a byte at a time.
struct Drop<'a>(&'a [u8]);

impl Read for Drop<'_> {
    fn read(&mut self, buffer: &mut [u8]) -> io::Result<usize> {
        let n = self.0.len().min(1);
        self.0.read(&mut buffer[..n])
    }
}

fn cases<R: Read>(data: R, kinds: &[Kind]) -> (Vec<Vec<Element>>, Option<std::string::String>) {
    let (mut all, mut error) = (Vec::new(), None);
    for case in Cases::new(data, kinds, 100).expect("a list of kinds") {
        match case {
            Ok(case) => all.push(case),
            Err(refusal) => error = Some(refusal.to_string()),
        }
    }
    (all, error)
}

const DATA: &[u8] = &[101, 253, 255, 254, 0, 99, 100, 0, 1, 2, 3, 4, 5, 6, 7, 8];

#[test]
fn cases_of_two_kinds() {
    let (all, error) = cases(DATA, &[Numeric, String]);
    assert_eq!(error, None);
    assert_eq!(
        all,
        [
            [Number(1.0), Text([1, 2, 3, 4, 5, 6, 7, 8])],
            [Number(-f64::MAX), Text(*b"        ")],
            [Number(-1.0), Text([0; 8])],
        ]
    );
    assert_eq!(cases(Drop(DATA), &[Numeric, String]), (all, None));
}

#[test]
fn a_252_ends_the_data() {
    let data = [101, 102, 252, 7, 7, 7, 7, 7, 1, 2, 3];
    assert_eq!(cases(&data[..], &[Numeric]), (vec![vec![Number(1.0)], vec![Number(2.0)]], None));
    // in the middle of a case too, which is not given
    assert_eq!(cases(&data[..], &[Numeric, Numeric, Numeric]), (vec![], None));
}

#[test]
fn refusals() {
    let bad_code = [101, 254, 0, 0, 0, 0, 0, 0];
    let expected = (vec![vec![Number(1.0)]], Some("refused 22 at 1".to_owned()));
    assert_eq!(cases(&bad_code[..], &[Numeric]), expected);
    let expected = (vec![vec![Number(1.0)]], Some("refused 23 at 10".to_owned()));
    assert_eq!(cases(&[101, 253, 0, 0, 0, 0, 0, 0, 1, 2][..], &[Numeric]), expected);
    let expected = (vec![], Some("refused 23 at 8".to_owned()));
    assert_eq!(cases(&[101, 0, 0, 0, 0, 0, 0, 0][..], &[Numeric, Numeric]), expected);
    assert_eq!(Cases::new(DATA, &[], 100).err().map(|refusal| refusal.number), Some(21));
    assert_eq!(
        Cases::new(DATA, &[Numeric; 257], 100).err().map(|refusal| refusal.number),
        Some(21)
    );
    assert_eq!(Cases::new(DATA, &[Numeric], 256).err().map(|refusal| refusal.number), Some(21));
}

#[test]
fn a_reader_that_fails() {
    struct Fails;
    impl Read for Fails {
        fn read(&mut self, _: &mut [u8]) -> io::Result<usize> {
            Err(io::ErrorKind::UnexpectedEof.into())
        }
    }
    let mut cases = Cases::new(Fails, &[Numeric], 100).expect("a list of kinds");
    assert!(matches!(cases.next(), Some(Err(CaseError::Read(_)))));
    assert!(cases.next().is_none());
}

#[test]
fn short_areas_and_words_that_are_no_state() {
    let mut state = [u32::MAX; lent::CASES_STATE];
    let mut answer = [9; 4];
    assert_eq!(lent::cases_start(&[0], 100, &mut state[1..], &mut answer), 0);
    assert_eq!(lent::cases_start(&[0], 100, &mut state, &mut answer[..1]), 0);
    assert_eq!((state, answer), ([u32::MAX; lent::CASES_STATE], [9; 4]));
    assert_eq!(lent::cases_feed(&mut state, DATA, &mut [0; 8], &mut answer), 4);
    assert_eq!((state, answer), ([u32::MAX; lent::CASES_STATE], [21, 0, 0, 0]));
    assert_eq!(lent::cases_end(&[1; lent::CASES_STATE], &mut answer), 2);
    assert_eq!(answer[..2], [21, 0]);
    assert_eq!(lent::cases_start(&[0], 100, &mut state, &mut answer), 2);
    assert_eq!(lent::cases_feed(&mut state, DATA, &mut [0; 7], &mut answer), 4);
    assert_eq!(answer, [0; 4]);
}
