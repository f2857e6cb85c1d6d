//! Texts converted by both, either way, into outputs of several lengths.

use digarumbi::codepage;
use digarumbi::lent::{self, TEXT_ANSWER};
use digarumbi_bench::codepages::{from_utf8, to_utf8, PAGES};
use digarumbi_bench::damage::damaged;
use digarumbi_bench::random::Random;
use digarumbi_bench::refusal::Refusal;

use crate::area::Area;
use crate::difference::Difference;
use crate::tally::Tally;
use crate::texts::{entries, in_utf8, mixed};

const GENERATED: u64 = 60_000;
/// Numbers of no page.
const UNKNOWN: [u32; 6] = [0, 1, 1249, 1253, 65_536 + 1250, u32::MAX];
/// Bytes at which a row of UTF-8 begins or ends, or that are no part of one.
const EDGES: [u8; 24] = [
    0x00, 0x41, 0x7f, 0x80, 0x8f, 0x90, 0x9f, 0xa0, 0xac, 0xbf, 0xc0, 0xc1, 0xc2, 0xc4, 0xdf, 0xe0,
    0xe2, 0xed, 0xef, 0xf0, 0xf4, 0xf5, 0xfe, 0xff,
];

/// What texts got, to UTF-8 and from it.
#[derive(Default)]
pub struct Texts {
    pub to: Tally,
    pub from: Tally,
}

/// Compares both directions on many texts.
pub fn check(seed: u64) -> Result<Texts, Difference> {
    let mut check = TextCheck::default();
    for page in PAGES {
        check.bytes_and_pairs(page)?;
        check.code_points(page)?;
        check.edges(page)?;
    }
    check.generated(seed)?;
    Ok(check.texts)
}

#[derive(Clone, Copy)]
enum Way {
    To,
    From,
}

struct TextCheck {
    texts: Texts,
    answer: [Area<u32>; 2],
    out: [Area<u8>; 2],
}

impl Default for TextCheck {
    fn default() -> TextCheck {
        TextCheck {
            texts: Texts::default(),
            answer: [Area::words("answer"), Area::words("answer")],
            out: [Area::bytes("out"), Area::bytes("out")],
        }
    }
}

impl TextCheck {
    /// Every byte and every pair of bytes, either way.
    fn bytes_and_pairs(&mut self, page: u32) -> Result<(), Difference> {
        for first in 0..=255 {
            self.several_lengths(Way::To, page, &[first])?;
            self.several_lengths(Way::From, page, &[first])?;
            for second in 0..=255 {
                self.one_length(Way::To, page, &[first, second])?;
                self.one_length(Way::From, page, &[first, second])?;
            }
        }
        Ok(())
    }

    /// Every character, with a letter on both sides.
    fn code_points(&mut self, page: u32) -> Result<(), Difference> {
        for character in (0..=0x10_ffff).filter_map(char::from_u32) {
            let text = format!("A{character}Z");
            self.one_length(Way::From, page, text.as_bytes())?;
        }
        Ok(())
    }

    /// Every three bytes, and every four that begin a row of four, of those at the edges of the rows.
    fn edges(&mut self, page: u32) -> Result<(), Difference> {
        for a in EDGES {
            for b in EDGES {
                for c in EDGES {
                    self.one_length(Way::From, page, &[a, b, c])?;
                    for d in EDGES.into_iter().filter(|_| a >= 0xf0) {
                        self.one_length(Way::From, page, &[a, b, c, d])?;
                    }
                }
            }
        }
        Ok(())
    }

    /// Random text of several kinds, and a damaged copy of each; now and then an unknown page.
    fn generated(&mut self, seed: u64) -> Result<(), Difference> {
        for number in 0..GENERATED {
            let mut random = Random::new(seed.wrapping_add(number));
            let page = random.pick(&PAGES);
            let times = random.pick(&[1, 2, 9, 40, 1_000]);
            let most = random.pick(&[9, 50, 400]);
            let length = random.size(most);
            let text = mixed(length, times, &entries(page, 0), &mut random);
            let utf8 = in_utf8(page, &text);
            let page = if random.once_in(50) { random.pick(&UNKNOWN) } else { page };
            self.several_lengths(Way::To, page, &text)?;
            self.several_lengths(Way::From, page, &utf8)?;
            self.several_lengths(Way::To, page, &damaged(&text, &mut random))?;
            self.several_lengths(Way::From, page, &damaged(&utf8, &mut random))?;
            self.several_lengths(Way::From, random.pick(&PAGES), &utf8)?;
        }
        Ok(())
    }

    /// With answers and outputs of several lengths, and by the bindings.
    fn several_lengths(&mut self, way: Way, page: u32, text: &[u8]) -> Result<(), Difference> {
        let most = 3 * text.len();
        let exact = convert(way, page, text, &mut vec![0; most]).unwrap_or(text.len());
        for out_length in [exact, exact.saturating_sub(1), exact + 9, 0] {
            self.compare(way, page, text, out_length, TEXT_ANSWER)?;
        }
        for answer_words in [0, TEXT_ANSWER - 1, TEXT_ANSWER + 2] {
            self.compare(way, page, text, exact, answer_words)?;
        }
        bindings(way, page, text).map_err(|difference| difference.for_input(name(way), text))
    }

    /// With room for all that can be written.
    fn one_length(&mut self, way: Way, page: u32, text: &[u8]) -> Result<(), Difference> {
        self.compare(way, page, text, 3 * text.len(), TEXT_ANSWER)
    }

    fn compare(
        &mut self,
        way: Way,
        page: u32,
        text: &[u8],
        out_length: usize,
        answer_words: usize,
    ) -> Result<(), Difference> {
        let place = format_args!("page {page}, {out_length} bytes, {answer_words} words");
        self.compare_lengths(way, page, text, out_length, answer_words)
            .map_err(|difference| difference.with(place).for_input(name(way), text))
    }

    fn compare_lengths(
        &mut self,
        way: Way,
        page: u32,
        text: &[u8],
        out_length: usize,
        answer_words: usize,
    ) -> Result<(), Difference> {
        self.answer.iter_mut().for_each(|area| area.fill(answer_words));
        self.out.iter_mut().for_each(|area| area.fill(out_length));
        let [expected_answer, found_answer] = &mut self.answer;
        let [expected_out, found_out] = &mut self.out;
        let found = match way {
            Way::To => lent::to_utf8(page, text, found_out.lent(), found_answer.lent()),
            Way::From => lent::from_utf8(page, text, found_out.lent(), found_answer.lent()),
        };
        let mut expected = 0;
        if answer_words >= TEXT_ANSWER {
            let converted = convert(way, page, text, expected_out.lent());
            let tally = match way {
                Way::To => &mut self.texts.to,
                Way::From => &mut self.texts.from,
            };
            tally.count(converted.map_or_else(|refusal| refusal.number, |_| 0));
            expected_answer.lent()[..TEXT_ANSWER].copy_from_slice(&words(converted));
            expected = TEXT_ANSWER;
        }
        Difference::compare("converting returned", &expected, &found)?;
        found_answer.compare(expected_answer)?;
        found_out.compare(expected_out)
    }
}

fn name(way: Way) -> &'static str {
    match way {
        Way::To => "to UTF-8",
        Way::From => "from UTF-8",
    }
}

/// The independent converter's answer.
fn convert(way: Way, page: u32, text: &[u8], out: &mut [u8]) -> Result<usize, Refusal> {
    match way {
        Way::To => to_utf8(page, text, out),
        Way::From => from_utf8(page, text, out),
    }
}

fn words(converted: Result<usize, Refusal>) -> [u32; TEXT_ANSWER] {
    match converted {
        Ok(length) => [0, 0, length as u32],
        Err(refusal) => [refusal.number, refusal.place as u32, 0],
    }
}

/// The bindings' strings and vectors.
fn bindings(way: Way, page: u32, text: &[u8]) -> Result<(), Difference> {
    let mut out = vec![0; 3 * text.len()];
    let expected = convert(way, page, text, &mut out).map(|length| out[..length].to_vec());
    let expected = expected.map_err(|refusal| refusal.to_string());
    let page = codepage::Page::try_from(page);
    let found = match way {
        Way::To => page.and_then(|page| page.decode(text)).map(String::into_bytes),
        Way::From => match std::str::from_utf8(text) {
            Ok(text) => page.and_then(|page| page.encode(text)),
            Err(_) => return Ok(()),
        },
    };
    let found = found.map_err(|refusal| refusal.to_string());
    Difference::compare("the bindings' text", &expected, &found)
}
