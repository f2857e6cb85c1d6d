//! One Value, or one Argument, read by both readers by every version.

use digarumbi::lent::{self, ARGUMENT_WORDS, VALUE_WORDS};
use digarumbi::{Arguments, Value, ValueBytes};
use digarumbi_bench::contents::{argument_contents, contents, Contents, Form};
use digarumbi_bench::cursor::Span;
use digarumbi_bench::random::Random;
use digarumbi_bench::refusal::Refusal;

use crate::area::Area;
use crate::difference::Difference;
use crate::inputs::Check;
use crate::tally::Tally;
use crate::words;

/// Those that there are, and others.
const VERSIONS: [u32; 6] = [0, 1, 2, 3, 4, 0x0100_0003];
/// The forms of a Value.
const FORMS: usize = 7;

/// Compares what both readers give for bytes that begin with a Value or an Argument, or do not.
pub struct ValueCheck {
    expected: Area<u32>,
    found: Area<u32>,
    /// What Values got, by every version, and what Arguments got.
    pub values: Tally,
    pub arguments: Tally,
    /// What Values got in version 1.
    pub version_1: Tally,
    /// How many accepted Values had each form, and how many stood inside others.
    forms: [u64; FORMS],
    pub inside: u64,
}

impl Default for ValueCheck {
    fn default() -> ValueCheck {
        ValueCheck {
            expected: Area::words("answer"),
            found: Area::words("answer"),
            values: Tally::default(),
            arguments: Tally::default(),
            version_1: Tally::default(),
            forms: [0; FORMS],
            inside: 0,
        }
    }
}

impl Check for ValueCheck {
    fn check(&mut self, bytes: &[u8], _original: &[u8]) -> Result<(), Difference> {
        for version in VERSIONS {
            self.check_version(version, bytes)
                .map_err(|difference| difference.with(format_args!("version {version}")))?;
        }
        Ok(())
    }

    fn damage_starts(&self, _original: &[u8]) -> Vec<usize> {
        vec![0]
    }
}

impl ValueCheck {
    /// Compares what both readers say of a Value of an accepted member, whose record has `length`.
    pub fn check_record(
        &mut self,
        version: u32,
        member: &[u8],
        place: u32,
        length: u32,
    ) -> Result<(), Difference> {
        let what = |difference: Difference| {
            difference.with(format_args!("the Value at {place}, {length} bytes"))
        };
        let from = &member[place as usize..];
        let bytes = &from[..length as usize];
        let value = self.value(version, bytes).map_err(what)?;
        let found = value.map(|value| value.length as u32);
        Difference::compare("length", &Ok(length), &found).map_err(what)?;
        let followed = self.value(version, from).map_err(what)?;
        Difference::compare("with the bytes after it", &value, &followed).map_err(what)?;
        let found = ValueBytes { version, bytes }.value();
        self.bindings_value(version, bytes, found).map_err(what)
    }

    fn check_version(&mut self, version: u32, bytes: &[u8]) -> Result<(), Difference> {
        let value = self.value(version, bytes)?;
        let number = value.map_or_else(|refusal| refusal.number, |_| 0);
        self.values.count(number);
        if version == 1 {
            self.version_1.count(number);
        }
        let argument = argument_contents(version, bytes);
        self.arguments.count(argument.map_or_else(|refusal| refusal.number, |_| 0));
        self.argument(version, bytes)?;
        let found = Value::read(version, bytes);
        let rest = value.map(|value| &bytes[value.length..]).map_err(|refusal| refusal.to_string());
        let found_rest = found.map(|(_, rest)| rest).map_err(|refusal| refusal.to_string());
        Difference::compare("the bindings' rest", &rest, &found_rest)?;
        self.bindings_value(version, bytes, found.map(|(value, _)| value))
    }

    /// The answers for a Value, in areas of several lengths.
    fn value(
        &mut self,
        version: u32,
        bytes: &[u8],
    ) -> Result<Result<Contents, Refusal>, Difference> {
        let expected = contents(version, bytes);
        let words = words::value_answer(&expected);
        self.answer(&words, VALUE_WORDS, |answer| lent::value(version, bytes, answer))?;
        Ok(expected)
    }

    /// The answers for an Argument, likewise.
    fn argument(&mut self, version: u32, bytes: &[u8]) -> Result<(), Difference> {
        let words = words::argument_answer(&argument_contents(version, bytes));
        self.answer(&words, ARGUMENT_WORDS, |answer| lent::argument(version, bytes, answer))
            .map_err(|difference| difference.with("argument"))
    }

    fn answer(
        &mut self,
        words: &[u32],
        least: usize,
        read: impl Fn(&mut [u32]) -> usize,
    ) -> Result<(), Difference> {
        for length in [least, least - 1, 0, least + 3] {
            self.expected.fill(length);
            self.found.fill(length);
            let mut expected = 0;
            if length >= least {
                self.expected.lent()[..least].copy_from_slice(words);
                expected = least;
            }
            let found = read(self.found.lent());
            Difference::compare(format_args!("{length} words, returned"), &expected, &found)?;
            self.found.compare(&self.expected)?;
        }
        Ok(())
    }

    /// The bindings' Value, down to the last argument.
    fn bindings_value(
        &mut self,
        version: u32,
        bytes: &[u8],
        found: Result<Value, digarumbi::Refusal>,
    ) -> Result<(), Difference> {
        let expected = contents(version, bytes);
        let (contents, value) = match (expected, found) {
            (Ok(contents), Ok(value)) => (contents, value),
            (expected, found) => {
                let expected = expected.map(drop).map_err(|refusal| refusal.to_string());
                let found = found.map(drop).map_err(|refusal| refusal.to_string());
                return Difference::compare("the bindings' refusal", &expected, &found);
            }
        };
        let fields = expected_fields(&contents.form, bytes);
        Difference::compare("the bindings' Value", &fields, &fields_of(&value))?;
        self.forms[form_number(&contents.form)] += 1;
        self.check_number(&value)?;
        if let Value::Template { arguments, .. } = value {
            return self.bindings_arguments(
                version,
                &bytes[..contents.length],
                &contents,
                arguments,
            );
        }
        Ok(())
    }

    /// The arguments of a template and their Values follow one another, up to its end.
    fn bindings_arguments(
        &mut self,
        version: u32,
        bytes: &[u8],
        contents: &Contents,
        mut found: Arguments,
    ) -> Result<(), Difference> {
        let Form::Template { arguments, first, .. } = contents.form else { return Ok(()) };
        let mut place = first;
        for _ in 0..arguments {
            self.argument(version, &bytes[place..])?;
            let argument = argument_contents(version, &bytes[place..]).expect("an argument");
            let mut values = found.next().ok_or_else(|| Difference::missing("an argument"))?;
            let mut inside = place + argument.first;
            for _ in 0..argument.values {
                let value = self.value(version, &bytes[inside..])?.expect("a Value inside");
                let own = values.next().ok_or_else(|| Difference::missing("a Value"))?;
                self.inside += 1;
                self.bindings_value(version, &bytes[inside..], Ok(own))?;
                inside += value.length;
            }
            Difference::compare("more Values", &None, &values.next())?;
            Difference::compare("end of an argument", &(place + argument.length), &inside)?;
            place = inside;
        }
        Difference::compare("more arguments", &true, &found.next().is_none())?;
        Difference::compare("end of the arguments", &bytes.len(), &place)
    }

    /// The number of a Value, and whether it is missing.
    fn check_number(&mut self, value: &Value) -> Result<(), Difference> {
        let number = value.bits().map(f64::from_bits).filter(|x| !x.is_nan());
        let found = value.number().map(f64::to_bits);
        Difference::compare("the number", &number.map(f64::to_bits), &found)?;
        Difference::compare("missing", &(number == Some(-f64::MAX)), &value.is_missing())
    }

    /// Whether every form was seen.
    pub fn all_forms_seen(&self) -> Result<(), Difference> {
        let seen: Vec<usize> = (0..FORMS).filter(|&form| self.forms[form] > 0).collect();
        Difference::compare("forms seen", &(0..FORMS).collect(), &seen)?;
        Difference::compare("Values inside others", &true, &(self.inside > 0))
    }

    /// How many accepted Values were looked at.
    pub fn accepted(&self) -> u64 {
        self.forms.iter().sum()
    }
}

/// Bits of doubles next to where it changes whether they are a number.
const BITS: [u64; 14] = [
    0,
    1,
    1 << 63,
    0x000f_ffff_ffff_ffff,
    0x3ff0_0000_0000_0000,
    0x7fef_ffff_ffff_ffff,
    0x7ff0_0000_0000_0000,
    0x7ff0_0000_0000_0001,
    0x7ff0_0001_0000_0000,
    0x7ff8_0000_0000_0000,
    0xffef_ffff_ffff_ffff,
    0xfff0_0000_0000_0000,
    0xfff0_0000_0000_0001,
    u64::MAX,
];
const RANDOM_BITS: u32 = 200_000;

/// Compares the numbers of many bits, and that no other bits are made of a NaN's. Gives how many.
pub fn check_numbers(seed: u64) -> Result<u64, Difference> {
    let mut random = Random::new(seed);
    let random = (0..RANDOM_BITS).map(|_| {
        let bits = random.next_number();
        // Once in four an infinity or a NaN, often with few bits set.
        match random.below(8) {
            0 => bits | 0x7ff << 52,
            1 => bits & 1 << 63 | 0x7ff << 52 | random.below(2) << random.below(52),
            _ => bits,
        }
    });
    let mut checked = 0;
    for bits in BITS.into_iter().chain(random) {
        let x = f64::from_bits(bits);
        let expected = if x.is_nan() { (0, 0) } else { (1, bits) };
        let (given, found) = lent::number(bits as u32, (bits >> 32) as u32);
        let found = (given, found.to_bits());
        Difference::compare(format_args!("the number of {bits:#x}"), &expected, &found)?;
        checked += 1;
    }
    Ok(checked)
}

fn form_number(form: &Form) -> usize {
    match form {
        Form::Number(_) => 0,
        Form::LabelledNumber { .. } => 1,
        Form::Text { .. } => 2,
        Form::String { .. } => 3,
        Form::Variable { .. } => 4,
        Form::FixedText(_) => 5,
        Form::Template { .. } => 6,
    }
}

/// A form, its numbers and its strings.
type Fields<'a> = (usize, Vec<u64>, Vec<&'a [u8]>);

fn expected_fields<'a>(form: &Form, bytes: &'a [u8]) -> Fields<'a> {
    let s = |span: Span| &bytes[span.place..][..span.length];
    let (numbers, strings) = match *form {
        Form::Number(number) => (vec![number.format.into(), number.bits], vec![]),
        Form::LabelledNumber { number, var_name, value_label, show } => (
            vec![number.format.into(), number.bits, show.into()],
            vec![s(var_name), s(value_label)],
        ),
        Form::Text { text, fixed } => {
            (vec![fixed.into()], vec![s(text.local), s(text.id), s(text.c)])
        }
        Form::String { format, value_label, var_name, show, s: string } => {
            (vec![format.into(), show.into()], vec![s(string), s(var_name), s(value_label)])
        }
        Form::Variable { var_name, var_label, show } => {
            (vec![show.into()], vec![s(var_name), s(var_label)])
        }
        Form::FixedText(text) => (vec![], vec![s(text.local), s(text.id), s(text.c)]),
        Form::Template { template, .. } => (vec![], vec![s(template)]),
    };
    (form_number(form), numbers, strings)
}

fn fields_of<'a>(value: &Value<'a>) -> Fields<'a> {
    match *value {
        Value::Number { format, bits } => (0, vec![format.into(), bits], vec![]),
        Value::LabelledNumber { format, bits, var_name, value_label, show } => {
            (1, vec![format.into(), bits, show.into()], vec![var_name, value_label])
        }
        Value::Text { local, id, c, fixed } => (2, vec![fixed.into()], vec![local, id, c]),
        Value::String { format, s, var_name, value_label, show } => {
            (3, vec![format.into(), show.into()], vec![s, var_name, value_label])
        }
        Value::Variable { var_name, var_label, show } => {
            (4, vec![show.into()], vec![var_name, var_label])
        }
        Value::FixedText { local, id, c } => (5, vec![], vec![local, id, c]),
        Value::Template { template, .. } => (6, vec![], vec![template]),
    }
}
