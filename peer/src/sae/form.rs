//! The nine forms, by J2178-2's three letters.

pub const UNM: u8 = 1;
pub const SNM: u8 = 2;
pub const SED: u8 = 3;
pub const BMP: u8 = 4;
pub const ASC: u8 = 5;
pub const BCD: u8 = 6;
pub const BMM: u8 = 7;
pub const SFP: u8 = 8;
pub const PKT: u8 = 9;

pub const LETTERS: [&str; 9] = [
    "UNM", "SNM", "SED", "BMP", "ASC", "BCD", "BMM", "SFP", "PKT",
];

/// The form's number, if these are its letters.
pub fn of_letters(letters: &str) -> Option<u8> {
    let place = LETTERS.iter().position(|known| *known == letters)?;
    Some(place as u8 + 1)
}
