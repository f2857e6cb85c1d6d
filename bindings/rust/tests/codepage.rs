//! Text in old code pages.

use digarumbi::codepage::{from_utf8, to_utf8, Page};
use digarumbi::lent::{self, TEXT_ANSWER};

#[test]
fn names() {
    for (page, bytes, text) in [
        (Page::Windows1250, &b"Bia\xb3ystok, \xa3\xf3d\x9f"[..], "Białystok, Łódź"),
        (Page::Windows1251, b"\xcc\xee\xf1\xea\xe2\xe0 \xb9 1", "Москва № 1"),
        (Page::Windows1252, b"\x80 5 \x96 na\xefve\0", "€ 5 – naïve\0"),
        (Page::Windows1251, b"", ""),
    ] {
        assert_eq!(page.decode(bytes).as_deref(), Ok(text));
        assert_eq!(page.encode(text).as_deref(), Ok(bytes));
    }
}

#[test]
fn bytes_without_an_entry() {
    for (page, none) in [
        (Page::Windows1250, &b"\x81\x83\x88\x90\x98"[..]),
        (Page::Windows1251, b"\x98"),
        (Page::Windows1252, b"\x81\x8d\x8f\x90\x9d"),
    ] {
        let refused = |byte: &u8| page.decode(&[b'A', *byte]).is_err();
        let all: Vec<u8> = (0..=255).filter(refused).collect();
        assert_eq!(all, none);
        assert_eq!(page.encode("\u{81}").unwrap_err().to_string(), "refused 25 at 0");
    }
}

#[test]
fn not_utf8() {
    let mut out = [7; 16];
    for (bytes, place) in [
        (&b"A\xc4A"[..], 1),      // truncated
        (b"\xe2\x82", 0),         // truncated at the end
        (b"AB\xc0\xaf", 2),       // overlong, two bytes
        (b"\xe0\x80\xaf", 0),     // overlong, three bytes
        (b"\xf0\x80\x80\xaf", 0), // overlong, four bytes
        (b"\xed\xa0\x80", 0),     // a surrogate
        (b"\xf4\x90\x80\x80", 0), // above 10FFFF
        (b"\xf0\x9f\x98\x80", 0), // a character of no page
        (b"A\xffB", 1),           // no lead byte
        (b"\xc3\xa9\x80", 2),     // a stray continuation byte
    ] {
        let refusal = from_utf8(Page::Windows1252, bytes, &mut out).unwrap_err();
        assert_eq!((refusal.number, refusal.place), (25, place));
        assert_eq!(out, [7; 16]);
    }
}

#[test]
fn order_of_refusals() {
    let mut out = [7; 2];
    let refusal = to_utf8(Page::Windows1252, b"\xe9\xe9\x81", &mut out[..1]).unwrap_err();
    assert_eq!(refusal.to_string(), "refused 25 at 2");
    let refusal = to_utf8(Page::Windows1252, b"\xe9", &mut out[..1]).unwrap_err();
    assert_eq!(refusal.to_string(), "refused 15 at 0");
    let mut answer = [7; TEXT_ANSWER + 1];
    assert_eq!(lent::to_utf8(1253, b"\x81", &mut out, &mut answer), TEXT_ANSWER);
    assert_eq!(answer, [24, 0, 0, 7]);
    assert_eq!(lent::from_utf8(1250, b"A", &mut out, &mut answer[..2]), 0);
    assert_eq!((answer, out), ([24, 0, 0, 7], [7; 2]));
}
