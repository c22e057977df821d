//! Document 02, Q-4: "Comparison is exact: 1.50 equals 15.0e-1." A float written out digit by
//! digit, with nothing rounded.

use crate::token::Float;
use std::cmp::Ordering;

/// At most 18 digits stand before the dot, and the exponent moves it by at most 64 places.
const BEFORE: usize = 18 + 64;

/// At most 18 digits stand after the dot, and the exponent moves it by at most 64 places.
const AFTER: usize = 18 + 64;

/// An amount: its digits before the dot and after it, the greatest first. 0 is never negative.
#[derive(Clone, Copy, Debug, PartialEq, Eq)]
pub struct Amount {
    negative: bool,
    digits: [u8; BEFORE + AFTER],
}

impl From<Float> for Amount {
    fn from(float: Float) -> Amount {
        let mut digits = [0; BEFORE + AFTER];
        let mut place = (BEFORE as i32 - float.power) as usize;
        let mut rest = float.digits;
        while rest > 0 {
            place -= 1;
            digits[place] = (rest % 10) as u8;
            rest /= 10;
        }
        Amount {
            negative: float.negative,
            digits,
        }
    }
}

impl Ord for Amount {
    fn cmp(&self, other: &Amount) -> Ordering {
        match (self.negative, other.negative) {
            (false, false) => self.digits.cmp(&other.digits),
            (true, true) => other.digits.cmp(&self.digits),
            (true, false) => Ordering::Less,
            (false, true) => Ordering::Greater,
        }
    }
}

impl PartialOrd for Amount {
    fn partial_cmp(&self, other: &Amount) -> Option<Ordering> {
        Some(self.cmp(other))
    }
}

#[cfg(test)]
mod tests {
    use super::*;
    use crate::random::Random;
    use crate::token::{step, Sort, Step};

    fn amount(word: &str) -> Amount {
        match step(word.as_bytes(), 0) {
            Step::Token(token, next) if next == word.len() => match token.sort {
                Sort::Float(float) => float.into(),
                sort => panic!("{word}: {sort:?}"),
            },
            step => panic!("{word}: {step:?}"),
        }
    }

    #[test]
    fn equal_amounts() {
        for (first, second) in [
            ("1.50", "15.0e-1"),
            ("-0.0", "0.0"),
            ("-0.0e64", "0.00e-64"),
            ("1.0", "+001.000"),
            ("1.0e64", "10.0e63"),
            ("0.1e-63", "1.0E-64"),
            ("0.00000000000000001e64", "1.0e47"),
            ("-2.5e1", "-25.0"),
        ] {
            assert_eq!(amount(first), amount(second), "{first} {second}");
        }
    }

    /// Each is less than the next; as binary floats some of them would be one number.
    #[test]
    fn rising_amounts() {
        let rising = [
            "-99999999999999999.9e64",
            "-99999999999999999.8e64",
            "-1.0e64",
            "-99999999999999999.9",
            "-1.5",
            "-1.49999999999999999",
            "-1.0e-64",
            "-0.00000000000000001e-64",
            "0.0",
            "0.00000000000000001e-64",
            "0.00000000000000002e-64",
            "1.0e-64",
            "0.3",
            "0.30000000000000001",
            "1.5",
            "1.50000000000000001",
            "2.0",
            "15.0",
            "99999999999999999.8",
            "99999999999999999.9",
            "1.0e64",
            "99999999999999999.8e64",
            "99999999999999999.9e64",
        ];
        for (index, first) in rising.into_iter().enumerate() {
            for (other, second) in rising.into_iter().enumerate() {
                let found = amount(first).cmp(&amount(second));
                assert_eq!(found, index.cmp(&other), "{first} {second}");
            }
        }
    }

    /// As whole numbers, where these are not too great.
    #[test]
    fn amounts_as_whole_numbers() {
        let random = &mut Random::new(4);
        let mut equal = 0;
        for _ in 0..100_000 {
            let common = random.from_to(0, 120) as i32 - 82;
            let mut one = || {
                let digits = random.number() % 10u64.pow(random.from_to(1, 18) as u32);
                let tens = random.below(4);
                let more = random.below(18);
                let digits = digits - digits % 10u64.pow(tens as u32);
                let float = Float {
                    negative: digits > 0 && random.once_in(2),
                    digits,
                    power: common + more as i32,
                };
                let whole = i128::from(digits) * 10i128.pow(more as u32);
                (
                    Amount::from(float),
                    if float.negative { -whole } else { whole },
                )
            };
            let [(first, first_whole), (second, second_whole)] = [one(), one()];
            assert_eq!(first.cmp(&second), first_whole.cmp(&second_whole));
            equal += usize::from(first == second);
        }
        assert!(equal > 100);
    }
}
