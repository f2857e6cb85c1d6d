//! One look, read and rewritten by both readers with lent areas of several lengths.

use digarumbi::lent::{self, LONGEST_LOOK, LOOK_ANSWER, REWRITE_ANSWER};
use digarumbi_bench::look::{file_version, read_look, write_look, Look};
use digarumbi_bench::refusal::Refusal;

use crate::area::Area;
use crate::difference::Difference;
use crate::inputs::Check;
use crate::tally::Tally;
use crate::words;

/// How much longer a version 00 file is when it is rewritten as version 02: 4 separators that are
/// drawn, 7 that are not, the 7 letters of the continuation and their length, and four numbers.
const LONGER: usize = 4 * 10 + 7 * 2 + 8 + 16;

struct Areas {
    answer: Area<u32>,
    out: Area<u8>,
}

impl Default for Areas {
    fn default() -> Areas {
        Areas { answer: Area::words("answer"), out: Area::bytes("out") }
    }
}

impl Areas {
    fn fill(&mut self, answer_words: usize, out_length: usize) {
        self.answer.fill(answer_words);
        self.out.fill(out_length);
    }

    fn compare(&self, expected: &Areas) -> Result<(), Difference> {
        self.answer.compare(&expected.answer)?;
        self.out.compare(&expected.out)
    }

    /// Stores an answer. Gives its number of words.
    fn store(&mut self, words: &[u32]) -> usize {
        self.answer.lent()[..words.len()].copy_from_slice(words);
        words.len()
    }
}

#[derive(Default)]
pub struct LookCheck {
    expected: Areas,
    found: Areas,
    /// What looks got.
    pub looks: Tally,
    /// What they got when they were written back into outputs of several lengths.
    pub rewritten: Tally,
    /// Accepted looks of version 00 and of version 02, by their files.
    pub versions: Versions,
}

#[derive(Default)]
pub struct Versions {
    pub old: u64,
    pub new: u64,
}

impl Check for LookCheck {
    fn check(&mut self, file: &[u8], _original: &[u8]) -> Result<(), Difference> {
        let look = read_look(file);
        self.looks.count(look.as_ref().map_or_else(|refusal| refusal.number, |_| 0));
        for answer_words in [LOOK_ANSWER, LOOK_ANSWER - 1, 0, LOOK_ANSWER + 9] {
            self.compare_read(file, &look, answer_words)
                .map_err(|difference| difference.with(format_args!("{answer_words} words")))?;
        }
        let rewritten = look.and_then(|look| written_file(&look, file));
        let length = rewritten.as_ref().map_or(file.len(), Vec::len);
        for out_length in [length, length.saturating_sub(1), 0, length + 9, LONGEST_LOOK] {
            for answer_words in [REWRITE_ANSWER, REWRITE_ANSWER - 1, 0, REWRITE_ANSWER + 2] {
                let lengths = format_args!("{out_length} bytes, {answer_words} words");
                self.compare_rewritten(file, &look, out_length, answer_words)
                    .map_err(|difference| difference.with(lengths))?;
            }
        }
        if let (Ok(look), Ok(rewritten)) = (&look, &rewritten) {
            self.compare_files(file, look, rewritten)?;
        }
        let expected = rewritten.map_err(|refusal| refusal.to_string());
        let found = digarumbi::rewrite_look(file).map_err(|refusal| refusal.to_string());
        Difference::compare("the bindings' rewritten look", &expected, &found)
    }

    fn damage_starts(&self, _original: &[u8]) -> Vec<usize> {
        vec![0]
    }
}

/// The file as which the independent writer writes a look.
fn written_file(look: &Look, names: &[u8]) -> Result<Vec<u8>, Refusal> {
    let mut out = vec![0; LONGEST_LOOK];
    let length = write_look(look, names, &mut out)?;
    out.truncate(length);
    Ok(out)
}

impl LookCheck {
    /// An accepted file beside the one as which it is rewritten: the same for version 02; for version
    /// 00 a longer one, which reads as the same look and is rewritten as it is.
    fn compare_files(
        &mut self,
        file: &[u8],
        look: &Look,
        rewritten: &[u8],
    ) -> Result<(), Difference> {
        if file_version(file) == Ok(2) {
            self.versions.new += 1;
            return Difference::compare("a version 02 file, rewritten", &file, &rewritten);
        }
        self.versions.old += 1;
        Difference::compare("its length", &(file.len() + LONGER), &rewritten.len())?;
        let same = read_look(rewritten).map(|new| new.same(rewritten, look, file));
        Difference::compare("whether it reads as the same look", &Ok(true), &same)?;
        let looks = [file, rewritten].map(digarumbi::Look::read);
        Difference::compare("the bindings' look of it", &looks[0], &looks[1])?;
        let again = digarumbi::rewrite_look(rewritten);
        Difference::compare("it rewritten again", &Ok(rewritten.to_vec()), &again)?;
        self.compare_short(file, rewritten.len() - 1)
    }

    /// One byte too few: 15 at 0, and nothing is written.
    fn compare_short(&mut self, file: &[u8], out_length: usize) -> Result<(), Difference> {
        self.fill(REWRITE_ANSWER, out_length);
        lent::rewrite_look(file, self.found.out.lent(), self.found.answer.lent());
        self.expected.store(&[15, 0, 0]);
        self.found.compare(&self.expected)
    }

    fn compare_read(
        &mut self,
        file: &[u8],
        look: &Result<Look, Refusal>,
        answer_words: usize,
    ) -> Result<(), Difference> {
        self.fill(answer_words, 0);
        let found = lent::read_look(file, self.found.answer.lent());
        let mut expected = 0;
        if answer_words >= LOOK_ANSWER {
            expected = self.expected.store(&words::look_answer(look));
        }
        Difference::compare("reading returned", &expected, &found)?;
        self.found.compare(&self.expected)
    }

    fn compare_rewritten(
        &mut self,
        file: &[u8],
        look: &Result<Look, Refusal>,
        out_length: usize,
        answer_words: usize,
    ) -> Result<(), Difference> {
        self.fill(answer_words, out_length);
        let found = lent::rewrite_look(file, self.found.out.lent(), self.found.answer.lent());
        let mut expected = 0;
        if answer_words >= REWRITE_ANSWER {
            let written = look.and_then(|look| write_look(&look, file, self.expected.out.lent()));
            self.rewritten.count(written.map_or_else(|refusal| refusal.number, |_| 0));
            expected = self.expected.store(&words::written_answer(&written));
        }
        Difference::compare("rewriting returned", &expected, &found)?;
        self.found.compare(&self.expected)
    }

    fn fill(&mut self, answer_words: usize, out_length: usize) {
        self.expected.fill(answer_words, out_length);
        self.found.fill(answer_words, out_length);
    }
}
