//! Columns of the openings that several tables have alike.

use crate::draws::Stream;
use crate::rows::Address;
use crate::text::Text;

const ORIGINAL: &[u8] = b"ORIGINAL";

/// A word, and a number with leading zeros in so many places.
pub fn numbered<const N: usize>(word: &[u8], places: u32, number: u32) -> Text<N> {
    let mut text = Text::of(word);
    for place in (0..places).rev() {
        // The places of a telephone number are more than those of any u32.
        let digit = u64::from(number) / 10u64.pow(place) % 10;
        text.append(&[b'0' + digit as u8]);
    }
    text
}

/// The address of every row of the plain opening.
pub fn plain_address() -> Address {
    Address {
        street_1: Text::of(b"MAINSTREET"),
        street_2: Text::of(b"SIDESTREET"),
        city: Text::of(b"CITYCENTRE"),
        state: Text::of(b"AB"),
        zip: Text::of(b"000111111"),
    }
}

/// A drawn address.
pub fn drawn_address(stream: &mut Stream) -> Address {
    Address {
        street_1: stream.a_text(10, 20),
        street_2: stream.a_text(10, 20),
        city: stream.a_text(10, 20),
        state: stream.a_text(2, 2),
        zip: {
            let mut zip = stream.n_text(4);
            zip.append(b"11111");
            zip
        },
    }
}

/// S_DIST_xx of the plain opening.
pub fn plain_district_text(number: u32) -> [u8; 24] {
    let mut text = [b'd'; 24];
    text[22] = b'0' + (number / 10) as u8;
    text[23] = b'0' + (number % 10) as u8;
    text
}

/// A drawn S_DIST_xx or OL_DIST_INFO.
pub fn drawn_district_text(stream: &mut Stream) -> [u8; 24] {
    // The length is drawn as every range is.
    stream.between(24, 24);
    let mut text = [0; 24];
    stream.letters(&mut text);
    text
}

/// I_DATA or S_DATA of the plain opening, and whether it contains ORIGINAL.
pub fn plain_information(letter: u8, original: bool) -> (Text<50>, bool) {
    let mut text = Text::EMPTY;
    text.room(26).fill(letter);
    if original {
        text.room(26)[..8].copy_from_slice(ORIGINAL);
    }
    (text, original)
}

/// A drawn I_DATA or S_DATA, and whether it contains ORIGINAL.
pub fn drawn_information(stream: &mut Stream) -> (Text<50>, bool) {
    let mut text: Text<50> = stream.a_text(26, 50);
    if stream.between(1, 10) == 1 {
        let length = text.as_bytes().len();
        let place = stream.between(0, length as u32 - 8) as usize;
        text.room(length)[place..place + 8].copy_from_slice(ORIGINAL);
    }
    // Letters may spell it by themselves.
    let original = text.as_bytes().windows(8).any(|part| part == ORIGINAL);
    (text, original)
}
