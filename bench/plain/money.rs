//! Amounts in cents, rates in ten-thousandths, moments in seconds: their texts, and how they are read.

/// An amount in cents.
pub type Cents = i64;

/// A rate in ten-thousandths.
pub type Rate = u16;

/// Seconds since the start of 1970, up to the end of 2099.
pub type Moment = u32;

/// The last moment.
pub const LAST_MOMENT: Moment = 4_102_444_799;

/// 9,999,999,999.99: the greatest amount that is read, and that a total may reach.
pub const MOST_CENTS: Cents = 999_999_999_999;

const SECONDS_A_DAY: u32 = 86_400;

static PAIRS: [[u8; 2]; 100] = pairs();

const fn pairs() -> [[u8; 2]; 100] {
    let mut pairs = [[0; 2]; 100];
    let mut number = 0;
    while number < 100 {
        pairs[number] = [b'0' + (number / 10) as u8, b'0' + (number % 10) as u8];
        number += 1;
    }
    pairs
}

/// Appends a number in decimal.
#[inline]
pub fn put_number(out: &mut Vec<u8>, number: u64) {
    // Most numbers of a screen have one or two digits.
    match number {
        0..=9 => out.push(b'0' + number as u8),
        10..=99 => out.extend_from_slice(&PAIRS[number as usize]),
        _ => put_long_number(out, number),
    }
}

fn put_long_number(out: &mut Vec<u8>, number: u64) {
    let mut digits = [0; 20];
    let mut start = digits.len();
    let mut rest = number;
    while rest >= 10 {
        start -= 2;
        digits[start..start + 2].copy_from_slice(&PAIRS[(rest % 100) as usize]);
        rest /= 100;
    }
    // A number of an odd number of digits still has its first one to come.
    if rest > 0 {
        start -= 1;
        digits[start] = b'0' + rest as u8;
    }
    out.extend_from_slice(&digits[start..]);
}

/// Appends an amount with two decimals.
pub fn put_cents(out: &mut Vec<u8>, amount: Cents) {
    if amount < 0 {
        out.push(b'-');
    }
    let cents = amount.unsigned_abs();
    put_number(out, cents / 100);
    let [tens, ones] = PAIRS[(cents % 100) as usize];
    out.extend_from_slice(&[b'.', tens, ones]);
}

/// Appends a rate, which is below 1, with four decimals.
pub fn put_rate(out: &mut Vec<u8>, rate: Rate) {
    let [a, b] = PAIRS[usize::from(rate / 100)];
    let [c, d] = PAIRS[usize::from(rate % 100)];
    out.extend_from_slice(&[b'0', b'.', a, b, c, d]);
}

/// Appends a moment as `YYYY-MM-DDThh:mm:ss` in UTC.
pub fn put_moment(out: &mut Vec<u8>, moment: Moment) {
    let (year, month, day) = date_of(moment / SECONDS_A_DAY);
    let second = moment % SECONDS_A_DAY;
    let mut text = *b"0000-00-00T00:00:00";
    let parts = [
        (0, year / 100),
        (2, year % 100),
        (5, month),
        (8, day),
        (11, second / 3600),
        (14, second / 60 % 60),
        (17, second % 60),
    ];
    for (place, number) in parts {
        text[place..place + 2].copy_from_slice(&PAIRS[number as usize]);
    }
    out.extend_from_slice(&text);
}

// Years are counted from March, so that the leap day is a year's last.
fn date_of(days: u32) -> (u32, u32, u32) {
    let days = days + 719_468;
    let era = days / 146_097;
    let day_of_era = days % 146_097;
    let year_of_era = (day_of_era - day_of_era / 1460 + day_of_era / 36_524 - day_of_era / 146_096) / 365;
    let day_of_year = day_of_era - (365 * year_of_era + year_of_era / 4 - year_of_era / 100);
    let from_march = (5 * day_of_year + 2) / 153;
    let day = day_of_year - (153 * from_march + 2) / 5 + 1;
    let month = if from_march < 10 { from_march + 3 } else { from_march - 9 };
    let year = year_of_era + era * 400 + u32::from(month <= 2);
    (year, month, day)
}

/// Reads a decimal number with no needless leading zero, up to `most`.
pub fn parse_number(word: &[u8], most: u64) -> Option<u64> {
    // Twelve digits are enough for every bound, and can't overflow.
    if word.is_empty() || word.len() > 12 || (word[0] == b'0' && word.len() > 1) {
        return None;
    }
    let mut value = 0;
    for &byte in word {
        let digit = byte.wrapping_sub(b'0');
        if digit > 9 {
            return None;
        }
        value = value * 10 + u64::from(digit);
    }
    (value <= most).then_some(value)
}

/// Reads an amount: a number, a point and two digits, up to 9,999,999,999.99.
pub fn parse_amount(word: &[u8]) -> Option<Cents> {
    let (whole, decimals) = word.split_at_checked(word.len().checked_sub(3)?)?;
    let &[b'.', tens @ b'0'..=b'9', ones @ b'0'..=b'9'] = decimals else {
        return None;
    };
    let whole = parse_number(whole, 9_999_999_999)?;
    let cents = u64::from(tens - b'0') * 10 + u64::from(ones - b'0');
    Some((whole * 100 + cents) as Cents)
}

/// The total of an order: its sum less the discount plus both taxes, rounded half up to a cent.
pub fn order_total(sum: Cents, discount: Rate, warehouse_tax: Rate, district_tax: Rate) -> Cents {
    let less = i64::from(10_000 - discount);
    let taxed = 10_000 + i64::from(warehouse_tax) + i64::from(district_tax);
    (sum * less * taxed + 50_000_000) / 100_000_000
}
