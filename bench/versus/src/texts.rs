//! Text for both converters.

use digarumbi_bench::codepages::Page;
use digarumbi_bench::random::Random;

/// The bytes of a page that have an entry, from `first` on.
pub fn entries(page: u32, first: u8) -> Vec<u8> {
    let page = Page::of(page).expect("a page");
    (first..=255).filter(|&byte| page.character(byte).is_some()).collect()
}

/// `length` bytes, of which one in `times` is one of `others` and each other one is a letter or a space.
pub fn mixed(length: usize, times: u64, others: &[u8], random: &mut Random) -> Vec<u8> {
    let letters = b"abcdefghijklmnopqrstuvwxyz     ";
    let byte = |_| if random.once_in(times) { random.pick(others) } else { random.pick(letters) };
    (0..length).map(byte).collect()
}

/// Text in windows-1251 as Russian has it: words of 1 to 12 letters.
pub fn russian(length: usize, random: &mut Random) -> Vec<u8> {
    let mut text = Vec::new();
    while text.len() < length {
        let letters = 1 + random.size(11);
        text.extend((0..letters).map(|_| 0xe0 + random.size(31) as u8));
        text.push(b' ');
    }
    text.truncate(length);
    text
}

/// The UTF-8 of a text in a page, all of whose bytes have an entry.
pub fn in_utf8(page: u32, text: &[u8]) -> Vec<u8> {
    let page = Page::of(page).expect("a page");
    let characters = text.iter().map(|&byte| page.character(byte).expect("an entry"));
    characters.collect::<String>().into_bytes()
}
