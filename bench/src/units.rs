//! Points, pixels and font heights.

use crate::refusal::*;

#[derive(Clone, Copy, Debug, PartialEq, Eq)]
pub struct Pt(pub u32);

#[derive(Clone, Copy, Debug, PartialEq, Eq)]
pub struct Px(pub u32);

/// Points to pixels: times 133/100, rounded up.
pub fn pt_to_px(pt: Pt) -> Result<Px, Refusal> {
    refuse_if(pt.0 > 1_000_000, LIMIT, 0)?;
    Ok(Px((pt.0 * 133).div_ceil(100)))
}

/// Pixels to points: times 100/133, rounded down.
pub fn px_to_pt(px: Px) -> Result<Pt, Refusal> {
    refuse_if(px.0 > 1_330_000, LIMIT, 0)?;
    Ok(Pt(px.0 * 100 / 133))
}

/// The height of a font in 96ths of an inch; its size is the negative of that.
pub fn font_height(size: i32) -> Result<u32, Refusal> {
    refuse_if(size >= 0, LIMIT, 0)?;
    Ok(size.unsigned_abs())
}

#[cfg(test)]
mod tests {
    use super::*;

    #[test]
    fn examples() {
        for (pt, px) in [(0, 0), (1, 2), (3, 4), (72, 96)] {
            assert_eq!(pt_to_px(Pt(pt)), Ok(Px(px)));
        }
        assert_eq!(px_to_pt(Px(2)), Ok(Pt(1)));
        assert_eq!(px_to_pt(Px(96)), Ok(Pt(72)));
    }

    #[test]
    fn points_to_pixels_and_back() {
        for pt in 0..=1_000_000 {
            assert_eq!(px_to_pt(pt_to_px(Pt(pt)).unwrap()), Ok(Pt(pt)));
        }
    }

    #[test]
    fn limits() {
        let limit = Refusal::new(LIMIT, 0);
        assert_eq!(pt_to_px(Pt(1_000_000)), Ok(Px(1_330_000)));
        assert_eq!(pt_to_px(Pt(1_000_001)), Err(limit));
        assert_eq!(px_to_pt(Px(1_330_000)), Ok(Pt(1_000_000)));
        assert_eq!(px_to_pt(Px(1_330_001)), Err(limit));
        assert_eq!(font_height(i32::MIN), Ok(2_147_483_648));
        assert_eq!(font_height(0xffff_fff4_u32 as i32), Ok(12));
        assert_eq!(font_height(0), Err(limit));
    }
}
