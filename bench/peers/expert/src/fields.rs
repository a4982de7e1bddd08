//! Texts of single fields: amounts and instants.

const MOST_NANOS: u64 = 100_000_000_000_000_000;
const MOST_DIGITS: usize = 40;
const MOST_EXPONENT: i32 = 40;

/// Why a text is no amount.
#[derive(PartialEq)]
pub enum NoAmount {
    /// It is no number text, or too long a one.
    NoNumber,
    /// It is past the greatest amount.
    TooGreat,
}

/// An amount as nanos, rounded to the nearest one and on a tie to the even one.
pub fn nanos(text: &[u8]) -> Result<i64, NoAmount> {
    if text.len() > MOST_DIGITS {
        return Err(NoAmount::NoNumber);
    }
    let (is_negative, text) = take_sign(text);
    let (mantissa, exponent) = match text.iter().position(|byte| matches!(byte, b'e' | b'E')) {
        Some(at) => (
            &text[..at],
            exponent(&text[at + 1..]).ok_or(NoAmount::NoNumber)?,
        ),
        None => (text, 0),
    };
    let (whole, fraction) = match mantissa.iter().position(|&byte| byte == b'.') {
        Some(at) => (&mantissa[..at], &mantissa[at + 1..]),
        None => (mantissa, &[][..]),
    };
    if (whole.is_empty() && fraction.is_empty()) || !all_digits(whole) || !all_digits(fraction) {
        return Err(NoAmount::NoNumber);
    }
    let mut digits = whole
        .iter()
        .chain(fraction)
        .map(|&byte| u64::from(byte - b'0'));
    // So many digits stand at a nano or above it.
    let kept = whole.len() as i32 + exponent + 9;
    let mut amount = 0;
    for _ in 0..kept {
        amount = amount * 10 + digits.next().unwrap_or(0);
        if amount > MOST_NANOS {
            return Err(NoAmount::TooGreat);
        }
    }
    if kept >= 0 && rounds_up(digits, amount % 2 == 1) {
        amount += 1;
    }
    if amount > MOST_NANOS {
        return Err(NoAmount::TooGreat);
    }
    Ok(if is_negative {
        -(amount as i64)
    } else {
        amount as i64
    })
}

/// Whether the digits after a nano are more than half of it, or half of it above an odd one.
fn rounds_up(mut rest: impl Iterator<Item = u64>, is_odd: bool) -> bool {
    match rest.next() {
        Some(5) => is_odd || rest.any(|digit| digit > 0),
        Some(digit) => digit > 5,
        None => false,
    }
}

fn take_sign(text: &[u8]) -> (bool, &[u8]) {
    match text {
        [b'-', rest @ ..] => (true, rest),
        [b'+', rest @ ..] => (false, rest),
        _ => (false, text),
    }
}

fn exponent(text: &[u8]) -> Option<i32> {
    let (is_negative, digits) = take_sign(text);
    if digits.is_empty() || !all_digits(digits) {
        return None;
    }
    let value = digits.iter().fold(0, |value, &byte| {
        (value * 10 + i32::from(byte - b'0')).min(1_000)
    });
    (value <= MOST_EXPONENT).then_some(if is_negative { -value } else { value })
}

fn all_digits(text: &[u8]) -> bool {
    text.iter().all(u8::is_ascii_digit)
}

/// An instant as seconds since 1970, in the forms of RFC 3339, ISO 8601 and RFC 9557 that `jiff` reads.
/// `None` for other texts, for a fraction that isn't zero, and before 1970.
pub fn seconds(text: &[u8]) -> Option<i64> {
    let seconds = common_instant(text).or_else(|| any_instant(text))?;
    (0..=LAST_SECOND).contains(&seconds).then_some(seconds)
}

/// An instant as nearly every export writes it: `2024-01-01T00:00:00Z`, or without its seconds.
fn common_instant(text: &[u8]) -> Option<i64> {
    let (day, time) = (text.get(..10)?, text.get(11..16)?);
    let marks = [day[4], day[7], text[10], time[2]];
    let second = match &text[16..] {
        b"Z" => 0,
        [b':', tens, ones, b'Z'] => number(&[*tens, *ones])?,
        _ => return None,
    };
    let (year, month, day) = (number(&day[..4])?, number(&day[5..7])?, number(&day[8..])?);
    let (hour, minute) = (number(&time[..2])?, number(&time[3..])?);
    let is_right = marks == *b"--T:"
        && (1..=12).contains(&month)
        && (1..=days_of(year, month)).contains(&day)
        && hour < 24
        && minute < 60
        && second < 60;
    is_right
        .then(|| days_since_1970(year, month, day) * 86_400 + hour * 3_600 + minute * 60 + second)
}

/// An instant in any form.
fn any_instant(text: &[u8]) -> Option<i64> {
    let mut rest = Rest(text);
    let day = rest.day()?;
    rest.one_of(b"Tt ")?;
    let (second, nanos) = rest.time()?;
    let offset = match rest.one_of(b"Zz+-")? {
        b'Z' | b'z' => 0,
        b'-' => -rest.offset()?,
        _ => rest.offset()?,
    };
    rest.annotations()?;
    (rest.0.is_empty() && nanos == 0).then_some(day * 86_400 + second - offset)
}

/// 9999-12-30T22:00:00Z, the last second that `jiff` knows.
const LAST_SECOND: i64 = 253_402_207_200;

/// What isn't read yet of a time's text.
struct Rest<'a>(&'a [u8]);

impl<'a> Rest<'a> {
    fn starts_with(&self, byte: u8) -> bool {
        self.0.first() == Some(&byte)
    }

    fn take(&mut self, byte: u8) -> bool {
        let found = self.starts_with(byte);
        if found {
            self.0 = &self.0[1..];
        }
        found
    }

    fn one_of(&mut self, bytes: &[u8]) -> Option<u8> {
        let first = *self.0.first()?;
        self.0 = &self.0[1..];
        bytes.contains(&first).then_some(first)
    }

    fn digits(&mut self, count: usize, most: i64) -> Option<i64> {
        let value = number(self.0.get(..count)?)?;
        self.0 = &self.0[count..];
        (value <= most).then_some(value)
    }

    fn day(&mut self) -> Option<i64> {
        let year = match self.0.first()? {
            b'+' => {
                self.0 = &self.0[1..];
                self.digits(6, 9_999)?
            }
            // A year before 0 lies before 1970 by more than an offset.
            _ => self.digits(4, 9_999)?,
        };
        let is_extended = self.take(b'-');
        let month = self.digits(2, 12)?;
        if self.take(b'-') != is_extended {
            return None;
        }
        let day = self.digits(2, 31)?;
        (month > 0 && day > 0 && day <= days_of(year, month))
            .then(|| days_since_1970(year, month, day))
    }

    /// Whether another pair of digits follows, after a colon where they are parted by colons.
    fn goes_on(&mut self, is_extended: bool) -> bool {
        if is_extended {
            self.take(b':')
        } else {
            self.0.len() > 1 && all_digits(&self.0[..2])
        }
    }

    fn time(&mut self) -> Option<(i64, i64)> {
        let mut second = self.digits(2, 23)? * 3_600;
        let is_extended = self.starts_with(b':');
        let mut nanos = 0;
        if self.goes_on(is_extended) {
            second += self.digits(2, 59)? * 60;
            if self.goes_on(is_extended) {
                second += self.digits(2, 60)?.min(59);
                nanos = self.fraction()?;
            }
        }
        Some((second, nanos))
    }

    fn fraction(&mut self) -> Option<i64> {
        if !self.take(b'.') && !self.take(b',') {
            return Some(0);
        }
        let count = self
            .0
            .iter()
            .take(9)
            .take_while(|byte| byte.is_ascii_digit())
            .count();
        if count == 0 {
            return None;
        }
        Some(self.digits(count, i64::MAX)? * 10_i64.pow(9 - count as u32))
    }

    fn offset(&mut self) -> Option<i64> {
        let mut offset = self.digits(2, 25)? * 3_600;
        let is_extended = self.starts_with(b':');
        if self.goes_on(is_extended) {
            offset += self.digits(2, 59)? * 60;
            if self.goes_on(is_extended) {
                offset += self.digits(2, 59)?;
                // A fraction of an offset's second is rounded.
                if self.fraction()? >= 500_000_000 {
                    offset += 1;
                }
            }
        }
        (offset < 26 * 3_600).then_some(offset)
    }

    fn annotations(&mut self) -> Option<()> {
        let mut is_first = true;
        while self.take(b'[') {
            let end = self.0.iter().position(|&byte| byte == b']')?;
            let (text, rest) = (&self.0[..end], &self.0[end + 1..]);
            self.0 = rest;
            let is_critical = text.first() == Some(&b'!');
            let text = &text[usize::from(is_critical)..];
            let is_right = match text.iter().position(|&byte| byte == b'=') {
                Some(at) => !is_critical && is_key(&text[..at]) && is_value(&text[at + 1..]),
                None => is_first && (is_zone_offset(text) || is_zone(text)),
            };
            if !is_right {
                return None;
            }
            is_first = false;
        }
        Some(())
    }
}

fn is_key(text: &[u8]) -> bool {
    matches!(text.first(), Some(b'a'..=b'z' | b'_'))
        && text
            .iter()
            .all(|byte| matches!(byte, b'a'..=b'z' | b'_' | b'-' | b'0'..=b'9'))
}

fn is_value(text: &[u8]) -> bool {
    text.split(|&byte| byte == b'-')
        .all(|part| !part.is_empty() && part.iter().all(u8::is_ascii_alphanumeric))
}

fn is_zone(text: &[u8]) -> bool {
    text.split(|&byte| byte == b'/').all(|part| {
        matches!(part.first(), Some(b'a'..=b'z' | b'A'..=b'Z' | b'_' | b'.'))
            && part.iter().all(|byte| {
                byte.is_ascii_alphanumeric() || matches!(byte, b'_' | b'.' | b'-' | b'+')
            })
    })
}

fn is_zone_offset(text: &[u8]) -> bool {
    let mut rest = Rest(text);
    rest.one_of(b"+-").is_some() && {
        let digits = rest.0.iter().filter(|byte| byte.is_ascii_digit()).count();
        digits <= 4 && rest.offset().is_some() && rest.0.is_empty()
    }
}

fn number(digits: &[u8]) -> Option<i64> {
    all_digits(digits).then(|| {
        digits
            .iter()
            .fold(0, |value, &byte| value * 10 + i64::from(byte - b'0'))
    })
}

fn days_of(year: i64, month: i64) -> i64 {
    match month {
        2 if year % 4 == 0 && (year % 100 != 0 || year % 400 == 0) => 29,
        2 => 28,
        4 | 6 | 9 | 11 => 30,
        _ => 31,
    }
}

/// Counts years from March, so that a leap day is the last day of one.
fn days_since_1970(year: i64, month: i64, day: i64) -> i64 {
    let year = if month <= 2 { year - 1 } else { year };
    let day_of_year = (153 * ((month + 9) % 12) + 2) / 5 + day - 1;
    year * 365 + year.div_euclid(4) - year.div_euclid(100) + year.div_euclid(400) + day_of_year
        - 719_468
}
