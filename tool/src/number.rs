//! Numbers in their shortest exact form.

/// The shortest digits that read back as the same double.
pub fn shortest(x: f64) -> String {
    if x == 0.0 || (1e-5..1e15).contains(&x.abs()) || !x.is_finite() {
        x.to_string()
    } else {
        format!("{x:e}")
    }
}

#[cfg(test)]
mod tests {
    use super::shortest;

    #[test]
    fn numbers() {
        let numbers = [2.5, -0.0, 0.1 + 0.2, 1e300, 1e-7, 123456789012345.0];
        let shown = ["2.5", "-0", "0.30000000000000004", "1e300", "1e-7", "123456789012345"];
        assert_eq!(numbers.map(shortest), shown);
        assert_eq!([f64::NAN, f64::INFINITY, -f64::INFINITY].map(shortest), ["NaN", "inf", "-inf"]);
    }
}
