//! Numbers: of every field, at the ends of its range and one past them, at the limits of what a token
//! means, and in the forms that are nearly numbers.

use std::borrow::Cow;
use std::ops::RangeInclusive;

use super::rng::Rng;
use crate::isa::{Field, Form};

/// Each is one token, within a token's limit.
#[rustfmt::skip]
pub const GOOD_NUMBERS: [&str; 78] = [
    "0", "-0", "00", "-00", "007", "-007", "1", "-1", "2", "9", "10", "15", "16", "17", "30", "31",
    "127", "128", "-127", "-128", "-129", "255", "256", "257", "-255", "-256", "-257", "300",
    "65535", "65536", "65537", "-65535", "-65536", "-65537", "131071", "131072", "131073",
    "-131071", "-131072", "1048575", "1048576", "-1048576", "-1048577", "2097150", "2097151",
    "2097152", "2147483647", "2147483648", "-2147483648", "-2147483649", "4294967295",
    "4294967296", "-4294967296", "-4294967297", "9223372036854775807", "-9223372036854775808",
    "00000000000000000000000009223372036854775807", "-00000000000000000000009223372036854775808",
    "0x0", "0x1", "0xff", "0xFf", "0x1fffe", "0x1FFFF", "0x20000", "0x1FFFFE", "0x7fffffff",
    "0x80000000", "0xffffffff", "0x7fffffffffffffff", "0x8000000000000000", "0xffffffffffffffff",
    "0x0000000000000000000000001", "0b0", "0b1", "0b10100",
    "0b1111111111111111111111111111111111111111111111111111111111111111",
    "0b00000000000000000000000000000000000000000000000000000000000000000011",
];

/// Bad tokens, several tokens, or no number at all.
#[rustfmt::skip]
pub const ODD_NUMBERS: [&str; 44] = [
    "9223372036854775808", "-9223372036854775809", "18446744073709551615", "18446744073709551616",
    "99999999999999999999999999", "-99999999999999999999999999", "0009223372036854775808",
    "0x10000000000000000", "0x00010000000000000000", "0xfffffffffffffffff",
    "0b10000000000000000000000000000000000000000000000000000000000000000",
    "0x", "0b", "0xg", "0b2", "0b12", "0x1g", "0X1", "0B1", "-0x5", "-0b1", "0x-1", "0b-1",
    "1-2", "1 -2", "--1", "+1", "-", "- 1", "1_000", "1.5", ".5", "1e5", "1x", "00x1", "00b1",
    "0x 1", "0 x1", "0o17", "#1", "1#", "$1", "'1'", "1,000",
];

/// A base in which a number is written.
#[derive(Clone, Copy)]
enum Base {
    Decimal,
    Hex,
    Binary,
}

impl Base {
    fn any(rng: &mut Rng) -> Base {
        rng.pick(&[Base::Decimal, Base::Decimal, Base::Hex, Base::Binary])
    }

    /// The numbers of a field.
    fn range(self, field: Field) -> RangeInclusive<i64> {
        match self {
            Base::Decimal => field.decimals(),
            Base::Hex | Base::Binary => 0..=*field.patterns().end() as i64,
        }
    }

    /// A number's text, now and then with leading zeros. Only a decimal one has a sign.
    fn spelled(self, rng: &mut Rng, number: i64) -> String {
        let zeros = rng.pick(&["", "", "", "", "0", "000"]);
        match self {
            Base::Decimal => {
                let signed = number < 0 || number == 0 && rng.percent(20);
                let sign = if signed { "-" } else { "" };
                format!("{sign}{zeros}{}", number.unsigned_abs())
            }
            Base::Hex if rng.percent(50) => format!("0x{zeros}{number:X}"),
            Base::Hex => format!("0x{zeros}{number:x}"),
            Base::Binary => format!("0b{zeros}{number:b}"),
        }
    }
}

/// The text of a number that is not negative, in any base.
pub fn spelled(rng: &mut Rng, number: i64) -> Cow<'static, str> {
    Base::any(rng).spelled(rng, number).into()
}

/// A number that fits a field.
pub fn fitting(rng: &mut Rng, field: Field) -> Cow<'static, str> {
    let base = Base::any(rng);
    let (least, most) = base.range(field).into_inner();
    let number = match rng.below(4) {
        0 => rng.pick(&[least, most]),
        1 => (rng.below(600) as i64 - 300).clamp(least, most),
        _ => least + (rng.bits() % (most - least + 1) as u64) as i64,
    };
    base.spelled(rng, number).into()
}

/// A number at an end of a field's range, next to it, or one past it.
pub fn about_an_end(rng: &mut Rng, field: Field) -> Cow<'static, str> {
    let base = Base::any(rng);
    let (least, most) = base.range(field).into_inner();
    let end = match base {
        Base::Decimal => rng.pick(&[least, most]),
        Base::Hex | Base::Binary => most,
    };
    let number = end - 1 + rng.below(3) as i64;
    base.spelled(rng, number).into()
}

/// A number about the ends of some form's field.
pub fn about_some_end(rng: &mut Rng) -> Cow<'static, str> {
    let form = rng.pick(&[Form::Immediate, Form::Shift, Form::Jump]);
    about_an_end(rng, form.field().expect("it has a number"))
}

/// A number for a field that may not fit it, or what looks like a number.
pub fn any_for(rng: &mut Rng, field: Field) -> Cow<'static, str> {
    match rng.below(8) {
        0 | 1 => any(rng),
        2..=4 => about_an_end(rng, field),
        _ => fitting(rng, field),
    }
}

/// The text of a number of any size.
pub fn good(rng: &mut Rng) -> Cow<'static, str> {
    match rng.below(8) {
        0 => rng.pick(&GOOD_NUMBERS).into(),
        1 | 2 => (rng.below(600) as i64 - 300).to_string().into(),
        3 | 4 => near_power(rng).to_string().into(),
        5 => hex(rng).into(),
        6 => format!("0b{:b}", some_width(rng)).into(),
        _ => (some_width(rng) as i64).to_string().into(),
    }
}

/// A number, or what looks like one.
pub fn any(rng: &mut Rng) -> Cow<'static, str> {
    match rng.below(4) {
        0 => rng.pick(&ODD_NUMBERS).into(),
        1 => over_limit(rng).into(),
        _ => good(rng),
    }
}

/// A power of two or a neighbour of one, of either sign.
fn near_power(rng: &mut Rng) -> i64 {
    let value = (1i64 << rng.below(63)) - 1 + rng.below(3) as i64;
    if rng.percent(50) {
        value
    } else {
        -value
    }
}

/// Random bits of a random width, so that small values are as likely as large ones.
fn some_width(rng: &mut Rng) -> u64 {
    rng.bits() >> rng.below(64)
}

fn hex(rng: &mut Rng) -> String {
    let value = some_width(rng);
    match rng.below(3) {
        0 => format!("0x{value:X}"),
        1 => format!("0x{value:020x}"),
        _ => format!("0x{value:x}"),
    }
}

/// Near a limit of its form, on either side.
fn over_limit(rng: &mut Rng) -> String {
    let near = rng.below(5) as i128 - 2;
    match rng.below(4) {
        0 => format!("{}", i128::from(i64::MAX) + near),
        1 => format!("{}", i128::from(i64::MIN) + near),
        2 => format!("0x{:x}", i128::from(u64::MAX) + near),
        _ => format!("0b{:b}", i128::from(u64::MAX) + near),
    }
}
