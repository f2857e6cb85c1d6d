//! Points, pixels and font heights.

use crate::lent;
use crate::Refusal;

/// Points, 72 to an inch.
#[derive(Clone, Copy, Debug, PartialEq, Eq)]
pub struct Pt(pub u32);

/// Device-independent pixels, 96 to an inch.
#[derive(Clone, Copy, Debug, PartialEq, Eq)]
pub struct Px(pub u32);

/// Times 133/100, rounded up.
///
/// ```
/// use digarumbi::{Pt, Px};
/// assert_eq!(Px::try_from(Pt(72)), Ok(Px(96)));
/// assert_eq!(Px::try_from(Pt(1_000_001)).unwrap_err().to_string(), "refused 7 at 0");
/// ```
impl TryFrom<Pt> for Px {
    type Error = Refusal;

    fn try_from(points: Pt) -> Result<Px, Refusal> {
        accepted(lent::pt_to_px(points.0)).map(Px)
    }
}

/// Times 100/133, rounded down.
///
/// ```
/// use digarumbi::{Pt, Px};
/// assert_eq!(Pt::try_from(Px(96)), Ok(Pt(72)));
/// ```
impl TryFrom<Px> for Pt {
    type Error = Refusal;

    fn try_from(pixels: Px) -> Result<Pt, Refusal> {
        accepted(lent::px_to_pt(pixels.0)).map(Pt)
    }
}

/// The height of a font in 96ths of an inch; a look's font size is the negative of it.
///
/// ```
/// assert_eq!(digarumbi::font_height(-12), Ok(12));
/// assert_eq!(digarumbi::font_height(0).unwrap_err().number, 7);
/// ```
pub fn font_height(size: i32) -> Result<u32, Refusal> {
    accepted(lent::font_height(size))
}

fn accepted((refusal, result): (u32, u32)) -> Result<u32, Refusal> {
    match refusal {
        0 => Ok(result),
        number => Err(Refusal::new(number, 0)),
    }
}
