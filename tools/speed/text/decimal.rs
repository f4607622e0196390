//! Decimals in whole millionths, as `cv_decimal` reads them: an optional sign, `nan` or a mantissa and an
//! optional exponent, rounded half away from zero; beyond 10^15 millionths they are only high or low.

/// The largest value.
const LIMIT: u64 = 1_000_000_000_000_000;

/// Behind a number from here on further digits are counted, but not kept.
const KEPT: u64 = 100_000_000_000_000_000;

#[derive(Clone, Copy, Debug, PartialEq)]
pub enum Fixed {
    Value(i64),
    High,
    Low,
    NotNumber,
}

/// The digits of a mantissa: the first of them as one number, how many more there were, and how many of all
/// stand behind the point.
struct Mantissa {
    digits: u64,
    dropped: i64,
    places: i64,
}

/// The mantissa at the front of a text, and its length.
fn mantissa(text: &[u8]) -> Option<(Mantissa, usize)> {
    let mut found = Mantissa { digits: 0, dropped: 0, places: 0 };
    let (mut point, mut len) = (None, 0);
    for byte in text {
        match byte {
            b'0'..=b'9' if found.digits < KEPT => found.digits = 10 * found.digits + u64::from(byte - b'0'),
            b'0'..=b'9' => found.dropped += 1,
            b'.' if point.is_none() => point = Some(len),
            _ => break,
        }
        len += 1;
    }
    if let Some(point) = point {
        found.places = (len - point - 1) as i64;
    }
    let any = len > usize::from(point.is_some());
    if any { Some((found, len)) } else { None }
}

/// The exponent at the front of a text, where there is one, and its length; `None` where it is broken off.
fn exponent(text: &[u8]) -> Option<(i64, usize)> {
    if !text.first().map_or(false, |byte| byte.eq_ignore_ascii_case(&b'e')) {
        return Some((0, 0));
    }
    let (sign, start) = match text.get(1) {
        Some(b'-') => (-1, 2),
        Some(b'+') => (1, 2),
        _ => (1, 1),
    };
    let digits = text[start..].iter().take_while(|byte| byte.is_ascii_digit());
    let (power, len) = digits.fold((0i64, 0), |(power, len), byte| {
        (power.saturating_mul(10).saturating_add(i64::from(byte - b'0')), len + 1)
    });
    if len == 0 { None } else { Some((sign * power, start + len)) }
}

/// The powers of ten up to 10^18.
const POWERS: [u64; 19] = {
    let (mut powers, mut at) = ([1; 19], 1);
    while at < 19 {
        powers[at] = 10 * powers[at - 1];
        at += 1;
    }
    powers
};

/// `digits` times 10^`scale`, rounded, or one above the limit where it is above the limit.
fn scaled(digits: u64, scale: i64) -> u64 {
    if digits == 0 || scale < -18 {
        return 0;
    }
    if scale < 0 {
        let unit = POWERS[-scale as usize];
        return ((2 * digits + unit) / (2 * unit)).min(LIMIT + 1);
    }
    digits.checked_mul(POWERS[scale.min(18) as usize]).map_or(LIMIT + 1, |all| all.min(LIMIT + 1))
}

/// The decimal at the front of a text, and its length.
pub fn decimal(text: &[u8]) -> Option<(Fixed, usize)> {
    let (negative, signed) = match text.first() {
        Some(b'-') => (true, 1),
        Some(b'+') => (false, 1),
        _ => (false, 0),
    };
    let text = &text[signed..];
    let Some((mantissa, len)) = mantissa(text) else {
        let is_nan = text.get(..3).map_or(false, |front| front.eq_ignore_ascii_case(b"nan"));
        return if is_nan { Some((Fixed::NotNumber, signed + 3)) } else { None };
    };
    let (power, more) = exponent(&text[len..])?;
    let scale = (6 + mantissa.dropped - mantissa.places).saturating_add(power);
    let millionths = scaled(mantissa.digits, scale);
    let value = match (millionths > LIMIT, negative) {
        (true, false) => Fixed::High,
        (true, true) => Fixed::Low,
        (false, false) => Fixed::Value(millionths as i64),
        (false, true) => Fixed::Value(-(millionths as i64)),
    };
    Some((value, signed + len + more))
}

/// The number of the first digits of a text, at most so many, behind another number, and how many they are.
fn front_digits(text: &[u8], from: u64, most: usize) -> (u64, usize) {
    let (mut number, mut len) = (from, 0);
    for byte in text.iter().take(most).take_while(|byte| byte.is_ascii_digit()) {
        number = 10 * number + u64::from(byte - b'0');
        len += 1;
    }
    (number, len)
}

/// The decimal at the front of a text, where it is at most nine digits and perhaps a point and at most six
/// more, and its length: what most decimals are.
pub fn short_decimal(text: &[u8]) -> Option<(i64, usize)> {
    let negative = text.first() == Some(&b'-');
    let start = usize::from(negative);
    let (whole, len) = front_digits(&text[start..], 0, 9);
    if len == 0 {
        return None;
    }
    let mut at = start + len;
    let (mut number, mut places) = (whole, 0);
    if text.get(at) == Some(&b'.') {
        (number, places) = front_digits(&text[at + 1..], whole, 6);
        at += 1 + places;
    }
    let millionths = (number * POWERS[6 - places]) as i64;
    Some((if negative { -millionths } else { millionths }, at))
}
