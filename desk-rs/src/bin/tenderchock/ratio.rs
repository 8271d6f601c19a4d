//! Ratios as the command line spells them, tested in whole numbers.

/// A number with at most nine digits behind the point.
#[derive(Clone, Copy, Debug, PartialEq, Eq)]
pub struct Ratio {
    /// In billionths.
    billionths: u64,
}

const ONE: u64 = 1_000_000_000;
/// Digits before the point.
const MOST_WHOLE: usize = 9;

impl Ratio {
    pub const ONE: Ratio = Ratio { billionths: ONE };
    pub const TWO: Ratio = Ratio {
        billionths: 2 * ONE,
    };
    /// The share of a region's bases that liftOver wants kept.
    pub const OF_LIFTOVER: Ratio = Ratio {
        billionths: ONE / 100 * 95,
    };

    /// Digits, with or without a point and digits behind it.
    pub fn read(word: &str) -> Option<Ratio> {
        let (whole, part) = word.split_once('.').unwrap_or((word, "0"));
        let digits =
            |digits: &str| !digits.is_empty() && digits.bytes().all(|byte| byte.is_ascii_digit());
        if !digits(whole) || !digits(part) || whole.len() > MOST_WHOLE || part.len() > 9 {
            return None;
        }
        let whole: u64 = whole.parse().ok()?;
        let part: u64 = format!("{part:0<9}").parse().ok()?;
        Some(Ratio {
            billionths: whole * ONE + part,
        })
    }

    /// Whether `part` is this share of `whole`, or more.
    pub fn is_reached(self, part: u64, whole: u64) -> bool {
        u128::from(part) * u128::from(ONE) >= u128::from(whole) * u128::from(self.billionths)
    }

    /// Whether `length` is this many times `asked`, or less.
    pub fn is_kept_to(self, length: u64, asked: u64) -> bool {
        u128::from(length) * u128::from(ONE) <= u128::from(asked) * u128::from(self.billionths)
    }

    /// Whether it is above 0 and at most 1.
    pub fn is_share(self) -> bool {
        (1..=ONE).contains(&self.billionths)
    }

    pub fn is_at_least_one(self) -> bool {
        self.billionths >= ONE
    }
}

#[cfg(test)]
mod tests {
    use super::*;

    #[test]
    fn ratios_are_exact() {
        let share =
            |word, part, whole| Ratio::read(word).map(|ratio| ratio.is_reached(part, whole));
        assert_eq!(share("0.95", 95, 100), Some(true));
        assert_eq!(share("0.95", 94, 100), Some(false));
        assert_eq!(share("1", u64::MAX - 1, u64::MAX), Some(false));
        assert_eq!(share("0.000000001", 1, 1_000_000_000), Some(true));
        assert_eq!(Ratio::read("0.95"), Some(Ratio::OF_LIFTOVER));
        assert_eq!(Ratio::read("1.0"), Some(Ratio::ONE));
        assert!(Ratio::TWO.is_kept_to(20, 10) && !Ratio::TWO.is_kept_to(21, 10));
        assert!(Ratio::TWO.is_kept_to(u64::MAX, u64::MAX / 2 + 1));
        for word in [
            "",
            ".5",
            "1.",
            "-1",
            "1e3",
            "0,5",
            "1.0000000001",
            "9999999999",
            "+1",
        ] {
            assert_eq!(Ratio::read(word), None, "{word}");
        }
    }
}
