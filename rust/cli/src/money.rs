//! Sums of money as they are shown: in pounds, with two decimals, or with four where hundredths of a penny count.

/// Pence in pounds: as `2.58`.
pub fn pounds(pence: u64) -> String {
    format!("{}.{:02}", pence / 100, pence % 100)
}

/// Hundredths of a penny in pounds: as `2.5750`.
pub fn exact_pounds(hundredths: u64) -> String {
    format!("{}.{:04}", hundredths / 10_000, hundredths % 10_000)
}

/// By how much a sum in pence is above or below one in hundredths of a penny, in hundredths of a penny.
pub fn difference(pence: u64, hundredths: u64) -> i128 {
    100 * i128::from(pence) - i128::from(hundredths)
}

/// Such a difference in pounds, with its sign: as `+0.0050`; or `0.0000`.
pub fn signed_pounds(hundredths: i128) -> String {
    let sign = match hundredths {
        0 => "",
        1.. => "+",
        _ => "-",
    };
    let size = hundredths.unsigned_abs();
    format!("{sign}{}.{:04}", size / 10_000, size % 10_000)
}

#[cfg(test)]
mod tests {
    use super::*;

    #[test]
    fn pence_are_pounds_with_two_decimals() {
        for (pence, text) in [
            (0, "0.00"),
            (1, "0.01"),
            (99, "0.99"),
            (100, "1.00"),
            (258, "2.58"),
            (1_000_000, "10000.00"),
            (u64::MAX, "184467440737095516.15"),
        ] {
            assert_eq!(pounds(pence), text);
        }
    }

    #[test]
    fn hundredths_of_a_penny_are_pounds_with_four_decimals() {
        for (hundredths, text) in [
            (0, "0.0000"),
            (1, "0.0001"),
            (99, "0.0099"),
            (100, "0.0100"),
            (9_999, "0.9999"),
            (10_000, "1.0000"),
            (25_750, "2.5750"),
            (u64::MAX, "1844674407370955.1615"),
        ] {
            assert_eq!(exact_pounds(hundredths), text);
        }
    }

    #[test]
    fn differences_have_a_sign() {
        for (pence, hundredths, text) in [
            (0, 0, "0.0000"),
            (258, 25_800, "0.0000"),
            (258, 25_750, "+0.0050"),
            (257, 25_749, "-0.0049"),
            (0, u64::MAX, "-1844674407370955.1615"),
            (u64::MAX, 0, "+184467440737095516.1500"),
        ] {
            assert_eq!(signed_pounds(difference(pence, hundredths)), text);
        }
    }
}
