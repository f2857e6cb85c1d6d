//! Compressed case data: the library beside the independent decoder, call by call, in random cuts and
//! rooms; words that are no state.

use digarumbi::lent::{
    cases_end, cases_feed, cases_start, CASES_ANSWER, CASES_FEED_ANSWER, CASES_STATE,
};
use digarumbi_bench::cases::{self, Decoder, Phase, BAD_CODE, BAD_STATE, LIMIT, TOO_MANY};
use digarumbi_bench::random::Random;
use digarumbi_bench::refusal::Refusal;

use crate::difference::Difference;
use crate::tally::Tally;

type State = [u32; CASES_STATE];

/// The words of a state, where the kinds begin.
const FIRST_KIND: usize = 12;

#[derive(Default)]
pub struct CaseCheck {
    /// The answers of calls.
    pub calls: Tally,
    /// The answers at the end of streams.
    pub ends: Tally,
    /// The answers to changed words.
    pub changed: Tally,
}

impl CaseCheck {
    /// Compares one generated stream.
    pub fn stream(&mut self, random: &mut Random) -> Result<(), Difference> {
        let (kinds, bias) = cases::start(random);
        let most = random.pick(&[2, 6, 20]);
        let groups = random.size(most);
        let bytes = cases::stream(random, &kinds, bias, groups);
        let mut decoder = Decoder::start(&kinds, bias).expect("kinds and a bias");
        let mut state = started(&kinds, bias)?;
        Difference::compare("the state at the start", &words_of(&decoder), &state)?;
        if random.once_in(20) {
            decoder.taken = LIMIT - LIMIT % 8 - 8 * random.size(12) as u64;
            state = words_of(&decoder);
        }
        let one = self.decode(random, decoder.clone(), state, &bytes)?;
        let other = self.decode(random, decoder, state, &bytes)?;
        Difference::compare("elements and state in other cuts", &one, &other)?;
        self.changed_words(random, &one.1)
    }

    /// Feeds all bytes in random cuts and rooms. Gives the elements and the last state.
    fn decode(
        &mut self,
        random: &mut Random,
        mut decoder: Decoder,
        mut state: State,
        bytes: &[u8],
    ) -> Result<(Vec<u8>, State), Difference> {
        let (mut elements, mut at) = (Vec::new(), 0);
        let (most_cut, most_room) = (random.pick(&[1, 9, 100, 1_000]), random.pick(&[9, 80, 900]));
        loop {
            let left = bytes.len() - at;
            let all = random.once_in(8);
            let cut = if all { left } else { random.size(most_cut.min(left)) };
            let room = random.size(most_room);
            let mut expected: Vec<u8> = (0..room).map(|_| random.next_number() as u8).collect();
            let mut found = expected.clone();
            let fed = decoder.feed(&bytes[at..at + cut], &mut expected);
            let mut answer = [u32::MAX; CASES_FEED_ANSWER + 1];
            cases_feed(&mut state, &bytes[at..at + cut], &mut found, &mut answer);
            let (number, place) = words(decoder.refusal());
            let wanted = [number, place, fed.taken as u32, fed.written as u32, u32::MAX];
            Difference::compare("a call's answer", &wanted, &answer)?;
            Difference::compare("a call's output", &expected, &found)?;
            Difference::compare("the state after a call", &words_of(&decoder), &state)?;
            self.calls.count(number);
            elements.extend_from_slice(&found[..8 * fed.written]);
            at += fed.taken;
            if cut == left && room >= 8 && fed.taken == 0 && fed.written == 0 {
                break;
            }
        }
        let mut answer = [0; CASES_ANSWER];
        cases_end(&state, &mut answer);
        let (number, place) = words(decoder.end());
        Difference::compare("the answer at the end", &[number, place], &answer)?;
        self.ends.count(number);
        Ok((elements, state))
    }

    /// Changes words of a state: refused exactly if they are no state, and then left as they are.
    fn changed_words(&mut self, random: &mut Random, state: &State) -> Result<(), Difference> {
        for _ in 0..8 {
            let mut changed = *state;
            for _ in 0..1 + random.size(2) {
                let word = if random.once_in(6) {
                    random.size(CASES_STATE - 1)
                } else {
                    random.size(FIRST_KIND - 1)
                };
                changed[word] = match random.below(6) {
                    0 => random.next_number() as u32,
                    1 => random.pick(&[0, 1, 7, 8, 22, 252, 253, u32::MAX]),
                    2 => changed[word].wrapping_add(8),
                    3 => changed[word].wrapping_sub(8),
                    4 => changed[word].wrapping_add(1),
                    _ => changed[word].wrapping_sub(1),
                };
            }
            let (mut after, mut answer) = (changed, [0; CASES_FEED_ANSWER]);
            cases_feed(&mut after, &[], &mut [], &mut answer);
            let refused = answer[0] == BAD_STATE;
            Difference::compare(
                format!("{changed:?} is no state"),
                &!is_state(&changed),
                &refused,
            )?;
            Difference::compare("words that were fed nothing", &changed, &after)?;
            let mut answer = [0; CASES_ANSWER];
            cases_end(&changed, &mut answer);
            Difference::compare("21 at the end too", &refused, &(answer[0] == BAD_STATE))?;
            self.changed.count(answer[0]);
        }
        Ok(())
    }
}

/// Starts that are refused leave the state as it was.
pub fn refused_starts() -> Result<u32, Difference> {
    let lists: [&[u8]; 5] = [&[], &[0; 257], &[2], &[0, 1, 255], &[1; 256]];
    let mut tried = 0;
    for kinds in lists {
        for bias in [0, 100, 255, 256, u32::MAX] {
            let mut state = [5; CASES_STATE];
            let mut answer = [0; CASES_ANSWER];
            cases_start(kinds, bias, &mut state, &mut answer);
            let (wanted, number) = match Decoder::start(kinds, bias) {
                Ok(decoder) => (words_of(&decoder), 0),
                Err(refusal) => ([5; CASES_STATE], refusal.number),
            };
            Difference::compare("a start's answer", &[number, 0], &answer)?;
            Difference::compare("the state after a start", &wanted, &state)?;
            tried += 1;
        }
    }
    Ok(tried)
}

fn started(kinds: &[u8], bias: u32) -> Result<State, Difference> {
    let (mut state, mut answer) = ([u32::MAX; CASES_STATE], [u32::MAX; CASES_ANSWER]);
    cases_start(kinds, bias, &mut state, &mut answer);
    Difference::compare("a start's answer", &[0, 0], &answer)?;
    Ok(state)
}

fn words(refusal: Option<Refusal>) -> (u32, u32) {
    refusal.map_or((0, 0), |refusal| (refusal.number, refusal.place as u32))
}

/// The decoder's state as the library has it.
fn words_of(decoder: &Decoder) -> State {
    let mut state = [0; CASES_STATE];
    state[0] = decoder.kinds.len() as u32;
    state[1] = u32::from(decoder.bias);
    state[2] = decoder.position as u32;
    state[3] = decoder.taken as u32;
    let (codes, block): (&[u8], &[u8]) = match &decoder.phase {
        Phase::Group(codes) => (codes, &[]),
        Phase::Codes { codes, first, next, block } => {
            state[4] = 1;
            state[5] = *first as u32 + *next as u32;
            (&codes[*next..], block)
        }
        Phase::Ended => {
            state[4] = 252;
            (&[], &[])
        }
        Phase::Refused(refusal) => {
            state[4] = refusal.number;
            state[5] = if refusal.number == BAD_CODE { refusal.place as u32 } else { 0 };
            (&[], &[])
        }
    };
    for (at, bytes) in [(6, codes), (9, block)] {
        let number = bytes.iter().rev().fold(0_u64, |number, &b| number << 8 | u64::from(b));
        state[at] = number as u32;
        state[at + 1] = (number >> 32) as u32;
        state[at + 2] = bytes.len() as u32;
    }
    for (word, &kind) in state[FIRST_KIND..].iter_mut().zip(&decoder.kinds) {
        *word = u32::from(kind);
    }
    state
}

/// Whether some stream leads to these words.
fn is_state(state: &State) -> bool {
    let [count, bias, at, taken, phase, place] = [0, 1, 2, 3, 4, 5].map(|i| u64::from(state[i]));
    let pair = |i: usize| u64::from(state[i]) | u64::from(state[i + 1]) << 32;
    let (codes, left, block, filled) = (pair(6), state[8], pair(9), state[11]);
    let fits = |number: u64, bytes: u32| bytes >= 8 || number < 1 << (8 * bytes);
    let kinds = &state[FIRST_KIND..];
    if count == 0 || count > 256 || bias > 255 || at >= count {
        return false;
    }
    let (used, rest) = kinds.split_at(count as usize);
    if used.iter().any(|&kind| kind > 1) || rest.iter().any(|&kind| kind != 0) {
        return false;
    }
    if left > 8 || filled > 7 || !fits(codes, left) || !fits(block, filled) {
        return false;
    }
    let at_rest = left == 0 && filled == 0;
    // so many elements before the code at `place`, and blocks of its group taken before it
    let counted = || {
        let (group, whole) = (place - place % 8, taken - taken % 8);
        if whole < group + 8 {
            return false;
        }
        let blocks = (whole - group - 8) / 8;
        let enough = (blocks..=place).take(256).any(|elements| elements % count == at);
        blocks <= place % 8 && enough
    };
    match phase {
        0 => {
            let whole = taken - taken % 8;
            filled == 0 && place == 0 && u64::from(left) == taken % 8 && at <= whole
        }
        1 => {
            let begun = filled == 0 || codes & 255 == 253;
            let aligned = u64::from(left) + place % 8 == 8 && u64::from(filled) == taken % 8;
            begun && aligned && counted()
        }
        252 => at_rest && place == 0 && taken % 8 == 0 && at < taken,
        number if number == u64::from(BAD_CODE) => at_rest && taken % 8 == 0 && counted(),
        number if number == u64::from(TOO_MANY) => at_rest && place == 0 && taken == LIMIT,
        _ => false,
    }
}
