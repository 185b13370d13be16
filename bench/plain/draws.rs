//! Streams of drawn numbers: the generator of `rand_pcg`, and the ranges and shuffles of `rand` 0.10.

use crate::text::Text;

const MULTIPLIER: u128 = 0x2360_ED05_1FC6_5DA4_4385_DF64_9FCC_F645;

const SYLLABLES: [&[u8]; 10] =
    [b"BAR", b"OUGHT", b"ABLE", b"PRI", b"PRES", b"ESE", b"ANTI", b"CALLY", b"ATION", b"EING"];

const LETTERS: &[u8; 62] = b"0123456789ABCDEFGHIJKLMNOPQRSTUVWXYZabcdefghijklmnopqrstuvwxyz";

/// What a stream is for; its number is part of the stream's.
#[derive(Clone, Copy)]
pub enum Purpose {
    Warehouse = 1,
    District = 2,
    Customer = 3,
    History = 4,
    Order = 5,
    OrderLine = 6,
    Item = 8,
    Stock = 9,
    Terminal = 10,
    Permutation = 11,
    /// Scripts that programs are compared by.
    Script = 12,
}

/// The generator `Lcg128Xsl64`: 128 bits of state, 64-bit words.
pub struct Stream {
    state: u128,
    increment: u128,
}

impl Stream {
    /// The stream of a seed, a purpose and a row's number.
    pub fn of(seed: u64, purpose: Purpose, row: u64) -> Self {
        let stream = (purpose as u128) << 64 | u128::from(row);
        let increment = stream << 1 | 1;
        let mut new = Stream { state: u128::from(seed).wrapping_add(increment), increment };
        new.step();
        new
    }

    #[inline]
    fn step(&mut self) {
        self.state = self.state.wrapping_mul(MULTIPLIER).wrapping_add(self.increment);
    }

    // A 32-bit word is the low half of a 64-bit one.
    #[inline]
    fn word(&mut self) -> u32 {
        self.step();
        let folded = (self.state >> 64) as u64 ^ self.state as u64;
        folded.rotate_right((self.state >> 122) as u32) as u32
    }

    // Canon's method: a second word only where the first leaves a carry open.
    #[inline]
    fn below(&mut self, range: u32) -> u32 {
        let product = u64::from(self.word()) * u64::from(range);
        let (high, low) = ((product >> 32) as u32, product as u32);
        if low > range.wrapping_neg() {
            return self.carried(range, high, low);
        }
        high
    }

    #[cold]
    fn carried(&mut self, range: u32, high: u32, low: u32) -> u32 {
        let next = (u64::from(self.word()) * u64::from(range)) >> 32;
        high + u32::from(low.checked_add(next as u32).is_none())
    }

    /// A number from `low` to `high`.
    #[inline]
    pub fn between(&mut self, low: u32, high: u32) -> u32 {
        low + self.below(high - low + 1)
    }

    /// The standard's NURand(A, x, y) with the constant C.
    pub fn nurand(&mut self, a: u32, c: u32, x: u32, y: u32) -> u32 {
        let mask = self.between(0, a);
        let number = self.between(x, y);
        ((mask | number) + c) % (y - x + 1) + x
    }

    /// Letters and digits, from `least` to `most` of them.
    pub fn a_text<const N: usize>(&mut self, least: u32, most: u32) -> Text<N> {
        let length = self.between(least, most) as usize;
        let mut text = Text::EMPTY;
        self.letters(text.room(length));
        text
    }

    /// Fills the bytes with letters and digits.
    pub fn letters(&mut self, bytes: &mut [u8]) {
        for byte in bytes {
            *byte = LETTERS[self.below(62) as usize];
        }
    }

    /// Digits, exactly `length` of them. The length is drawn too, as every range is.
    pub fn n_text<const N: usize>(&mut self, length: u32) -> Text<N> {
        let length = self.between(length, length) as usize;
        let mut text = Text::EMPTY;
        for byte in text.room(length) {
            *byte = b'0' + self.below(10) as u8;
        }
        text
    }

    /// `rand`'s shuffle: one word serves as many places as its range holds.
    pub fn shuffle<T>(&mut self, list: &mut [T]) {
        let mut chunk = 0;
        let mut left = 1u32;
        for place in 0..list.len() {
            let count = place as u32 + 1;
            if left == 0 {
                let (range, factors) = rising(count);
                chunk = self.below(range);
                left = factors;
            }
            left -= 1;
            let index = if left == 0 { chunk } else { chunk % count };
            chunk /= count;
            list.swap(place, index as usize);
        }
    }

    /// The numbers 1 to `count`, shuffled.
    pub fn permutation(&mut self, count: u32) -> Vec<u16> {
        let mut numbers: Vec<u16> = (1..=count as u16).collect();
        self.shuffle(&mut numbers);
        numbers
    }
}

// The largest product of numbers from `first` up that fits 32 bits, and how many factors it has.
fn rising(first: u32) -> (u32, u32) {
    let mut product = first;
    let mut factors = 1;
    while let Some(next) = product.checked_mul(first + factors) {
        product = next;
        factors += 1;
    }
    (product, factors)
}

/// The last name of a number below 1,000: a syllable for each of its three digits.
pub fn last_name(number: u32) -> Text<16> {
    let mut name = Text::EMPTY;
    for digit in [number / 100, number / 10 % 10, number % 10] {
        name.append(SYLLABLES[digit as usize]);
    }
    name
}
