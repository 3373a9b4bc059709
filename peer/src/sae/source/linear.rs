//! The transfer functions E: exact fractions, and expressions linear in N.

use std::ops::{Add, Div, Mul, Sub};

/// A fraction in lowest terms with a positive denominator.
#[derive(Clone, Copy, Debug, PartialEq)]
pub struct Ratio {
    pub above: i128,
    pub below: i128,
}

impl Ratio {
    pub fn new(above: i128, below: i128) -> Ratio {
        let common = greatest_common(above.abs(), below.abs()).max(1) * below.signum();
        Ratio {
            above: above / common,
            below: below / common,
        }
    }

    pub fn whole(number: i128) -> Ratio {
        Ratio::new(number, 1)
    }

    /// A decimal number like -1.28 or 65,535.
    pub fn of_decimal(text: &str) -> Option<Ratio> {
        let text = text.replace(',', "");
        let (units, places) = text.split_once('.').unwrap_or((&text, ""));
        let above = format!("{units}{places}").parse().ok()?;
        Some(Ratio::new(above, 10_i128.pow(places.len() as u32)))
    }

    pub fn is_at_most(self, other: Ratio) -> bool {
        self.above * other.below <= other.above * self.below
    }
}

fn greatest_common(a: i128, b: i128) -> i128 {
    if b == 0 {
        a
    } else {
        greatest_common(b, a % b)
    }
}

impl Add for Ratio {
    type Output = Ratio;
    fn add(self, other: Ratio) -> Ratio {
        let above = self.above * other.below + other.above * self.below;
        Ratio::new(above, self.below * other.below)
    }
}

impl Sub for Ratio {
    type Output = Ratio;
    fn sub(self, other: Ratio) -> Ratio {
        self + other * Ratio::whole(-1)
    }
}

impl Mul for Ratio {
    type Output = Ratio;
    fn mul(self, other: Ratio) -> Ratio {
        Ratio::new(self.above * other.above, self.below * other.below)
    }
}

impl Div for Ratio {
    type Output = Ratio;
    fn div(self, other: Ratio) -> Ratio {
        Ratio::new(self.above * other.below, self.below * other.above)
    }
}

/// `slope` x N + `base`.
#[derive(Clone, Copy, Debug, PartialEq)]
pub struct Linear {
    pub slope: Ratio,
    pub base: Ratio,
}

impl Linear {
    /// An expression of N, decimal numbers, + - * / and parentheses: known by its
    /// values for 0 and 1 if it is linear, which the one for 2 shows.
    pub fn of_text(text: &str) -> Option<Linear> {
        let base = value(text, 0)?;
        let slope = value(text, 1)? - base;
        let linear = Linear { slope, base };
        (value(text, 2)? == linear.at(2)).then_some(linear)
    }

    pub fn at(self, raw: i128) -> Ratio {
        self.slope * Ratio::whole(raw) + self.base
    }
}

/// What the expression gives for one N.
fn value(text: &str, raw: i128) -> Option<Ratio> {
    let letters: Vec<char> = text
        .chars()
        .filter(|letter| !matches!(letter, ' ' | '$'))
        .collect();
    let mut rest = &letters[..];
    let value = sum(&mut rest, raw)?;
    rest.is_empty().then_some(value)
}

/// Takes one of these signs from the start.
fn sign(rest: &mut &[char], signs: [char; 2]) -> Option<char> {
    let (first, after) = rest.split_first()?;
    let is_sign = signs.contains(first);
    if is_sign {
        *rest = after;
    }
    is_sign.then_some(*first)
}

fn sum(rest: &mut &[char], raw: i128) -> Option<Ratio> {
    let mut value = product(rest, raw)?;
    while let Some(sign) = sign(rest, ['+', '-']) {
        let other = product(rest, raw)?;
        value = match sign {
            '+' => value + other,
            _ => value - other,
        };
    }
    Some(value)
}

fn product(rest: &mut &[char], raw: i128) -> Option<Ratio> {
    let mut value = factor(rest, raw)?;
    while let Some(sign) = sign(rest, ['*', '/']) {
        let other = factor(rest, raw)?;
        value = match sign {
            '*' => value * other,
            _ if other.above == 0 => return None,
            _ => value / other,
        };
    }
    Some(value)
}

fn factor(rest: &mut &[char], raw: i128) -> Option<Ratio> {
    let (first, after) = rest.split_first()?;
    match first {
        'N' => {
            *rest = after;
            Some(Ratio::whole(raw))
        }
        '(' => {
            *rest = after;
            let inner = sum(rest, raw)?;
            sign(rest, [')'; 2]).map(|_| inner)
        }
        _ => {
            let is_of_number = |letter: &&char| letter.is_ascii_digit() || **letter == '.';
            let number: String = rest.iter().take_while(is_of_number).collect();
            *rest = &rest[number.len()..];
            Ratio::of_decimal(&number)
        }
    }
}

#[cfg(test)]
mod tests {
    use super::*;

    fn line(slope: (i128, i128), base: (i128, i128)) -> Option<Linear> {
        Some(Linear {
            slope: Ratio::new(slope.0, slope.1),
            base: Ratio::new(base.0, base.1),
        })
    }

    #[test]
    fn expressions() {
        assert_eq!(Linear::of_text("N"), line((1, 1), (0, 1)));
        assert_eq!(Linear::of_text("N - 40"), line((1, 1), (-40, 1)));
        assert_eq!(Linear::of_text("N * 5 / 2"), line((5, 2), (0, 1)));
        assert_eq!(
            Linear::of_text("$(N * 128) / 8000$"),
            line((2, 125), (0, 1))
        );
        assert_eq!(
            Linear::of_text("(N/1.28) - 100"),
            line((100, 128), (-100, 1))
        );
        for other in ["", "E * 2", "N N", "(N", "N * N", "N -"] {
            assert_eq!(Linear::of_text(other), None, "{other}");
        }
    }

    #[test]
    fn decimals() {
        assert_eq!(Ratio::of_decimal("-1.28"), Some(Ratio::new(-32, 25)));
        assert_eq!(Ratio::of_decimal("65,535"), Some(Ratio::whole(65535)));
        assert_eq!(Ratio::of_decimal("+63.5"), Some(Ratio::new(127, 2)));
        assert_eq!(Ratio::of_decimal("x"), None);
        assert!(Ratio::new(-1, 2).is_at_most(Ratio::new(-1, 3)));
    }
}
