//! Points, pixels and font heights.

use std::fmt::Display;

use digarumbi::lent;
use digarumbi_bench::random::Random;
use digarumbi_bench::refusal::Refusal;
use digarumbi_bench::units::{font_height, pt_to_px, px_to_pt, Pt, Px};

use crate::difference::Difference;

/// Numbers above every limit of points and pixels.
const EVERY_NUMBER_BELOW: u32 = 1_400_000;
const RANDOM_NUMBERS: u32 = 100_000;

/// Compares all three functions on many numbers. Gives how many.
pub fn check(seed: u64) -> Result<u32, Difference> {
    let mut random = Random::new(seed);
    let extremes = [u32::MAX, u32::MAX - 1, 1 << 31, (1 << 31) - 1, (1 << 31) + 1];
    let random = (0..RANDOM_NUMBERS).map(|_| random.next_number() as u32);
    let mut checked = 0;
    for number in (0..EVERY_NUMBER_BELOW).chain(extremes).chain(random) {
        check_number(number)?;
        checked += 1;
    }
    Ok(checked)
}

fn check_number(number: u32) -> Result<(), Difference> {
    let size = number as i32;
    let pixels = pt_to_px(Pt(number)).map(|pixels| pixels.0);
    let points = px_to_pt(Px(number)).map(|points| points.0);
    compare(format_args!("{number} pt in px"), pixels, lent::pt_to_px(number))?;
    compare(format_args!("{number} px in pt"), points, lent::px_to_pt(number))?;
    compare(format_args!("height of {size}"), font_height(size), lent::font_height(size))?;
    let negative = size.wrapping_neg();
    compare(
        format_args!("height of {negative}"),
        font_height(negative),
        lent::font_height(negative),
    )
}

fn compare(
    what: impl Display,
    expected: Result<u32, Refusal>,
    found: (u32, u32),
) -> Result<(), Difference> {
    let expected = match expected {
        Ok(result) => (0, result),
        Err(refusal) => (refusal.number, 0),
    };
    Difference::compare(what, &expected, &found)
}
