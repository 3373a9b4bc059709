//! The SLOTs of J2178-2 of the forms UNM, SNM, SED, BMP, ASC and BCD, in
//! rising order of form, width and number.

use super::form::*;
use super::{all_ones, Slot};

pub const SLOTS: &[Slot] = &[
    // Tables 22 to 27: unsigned numeric.
    zeros(1),
    unm(1, 1, (1, 1, 0), (0, 1)),
    zeros(2),
    unm(2, 1, (1, 1, 0), (0, 3)),
    zeros(3),
    unm(3, 1, (1, 1, 0), (0, 7)),
    zeros(4),
    unm(4, 1, (1, 1, 0), (0, 15)),
    zeros(5),
    unm(5, 1, (1, 1, 0), (0, 31)),
    zeros(6),
    unm(6, 1, (1, 1, 0), (0, 63)),
    zeros(7),
    unm(7, 1, (1, 1, 0), (0, 127)),
    zeros(8),
    unm(8, 1, (1, 8000, 0), (0, 255)),
    unm(8, 2, (1, 4000, 0), (0, 255)),
    unm(8, 3, (1, 2000, 0), (0, 255)),
    unm(8, 4, (1, 1000, 0), (0, 255)),
    unm(8, 5, (1, 511, 0), (0, 255)),
    unm(8, 6, (1, 255, 0), (0, 255)),
    unm(8, 7, (1, 100, -128), (0, 255)),
    unm(8, 11, (1, 200, 0), (0, 255)),
    unm(8, 15, (1, 100, 0), (0, 255)),
    unm(8, 21, (1, 64, 0), (0, 255)),
    unm(8, 26, (1, 32, 0), (0, 255)),
    unm(8, 31, (1, 16, 0), (0, 255)),
    unm(8, 32, (1, 13, 0), (0, 255)),
    unm(8, 41, (1, 10, 0), (0, 255)),
    unm(8, 45, (1, 8, 0), (0, 255)),
    unm(8, 51, (1, 4, 0), (0, 255)),
    unm(8, 55, (1, 3, 0), (0, 255)),
    unm(8, 61, (100, 255, 0), (0, 255)),
    unm(8, 71, (1, 2, 0), (0, 255)),
    unm(8, 72, (1, 2, -128), (0, 255)),
    unm(8, 73, (1, 2, -80), (0, 255)),
    unm(8, 76, (2, 3, 0), (0, 255)),
    unm(8, 77, (2, 3, 0), (0, 150)),
    unm(8, 81, (3, 4, 0), (0, 255)),
    unm(8, 82, (3, 4, -360), (0, 240)),
    unm(8, 91, (100, 128, 0), (0, 255)),
    unm(8, 92, (100, 128, -12800), (0, 255)),
    unm(8, 101, (1, 1, 0), (0, 255)),
    unm(8, 102, (1, 1, -40), (0, 255)),
    unm(8, 104, (1, 1, -128), (0, 255)),
    unm(8, 111, (3, 2, 0), (0, 240)),
    unm(8, 121, (2, 1, 0), (0, 255)),
    unm(8, 125, (5, 2, 0), (0, 255)),
    unm(8, 131, (3, 1, 0), (0, 255)),
    unm(8, 141, (4, 1, 0), (0, 255)),
    unm(8, 151, (8, 1, 0), (0, 255)),
    unm(8, 155, (10, 1, 0), (0, 255)),
    unm(8, 159, (14, 1, 0), (0, 255)),
    unm(8, 161, (16, 1, 0), (0, 255)),
    unm(8, 165, (25, 1, 0), (0, 255)),
    unm(8, 171, (32, 1, 0), (0, 255)),
    unm(8, 181, (64, 1, 0), (0, 255)),
    unm(8, 185, (100, 1, 0), (0, 255)),
    unm(8, 191, (128, 1, 0), (0, 255)),
    unm(8, 201, (256, 1, 0), (0, 255)),
    unm(8, 211, (512, 1, 0), (0, 255)),
    unm(8, 221, (1024, 1, 0), (0, 255)),
    unm(8, 231, (2048, 1, 0), (0, 255)),
    unm(8, 241, (4096, 1, 0), (0, 255)),
    zeros(16),
    unm(16, 1, (100, 65535, 0), (0, 65535)),
    unm(16, 2, (1, 256, 0), (0, 65535)),
    unm(16, 3, (1, 256, -17920), (0, 65535)),
    unm(16, 5, (1, 128, 0), (0, 65535)),
    unm(16, 8, (1, 64, 0), (0, 65535)),
    unm(16, 11, (1, 100, 0), (0, 65535)),
    unm(16, 21, (1, 10, 0), (0, 65535)),
    unm(16, 31, (1, 4, 0), (0, 65535)),
    unm(16, 41, (1, 1, 0), (0, 65535)),
    unm(16, 61, (64, 1, 0), (0, 65535)),
    zeros(24),
    unm(24, 11, (1, 10, 0), (0, 0xFF_FFFF)),
    unm(24, 21, (128, 8000, 0), (0, 0xFF_FFFF)),
    unm(24, 31, (128, 4000, 0), (0, 0xFF_FFFF)),
    unm(24, 41, (1, 64, 0), (0, 0xFF_FFFF)),
    zeros(32),
    unm(32, 11, (1, 8000, 0), (0, 0xFFFF_FFFF)),
    unm(32, 21, (1, 4000, 0), (0, 0xFFFF_FFFF)),
    unm(32, 41, (1, 64, 0), (0, 0xFFFF_FFFF)),
    zeros(40),
    zeros(48),
    zeros(56),
    // Table 28: signed numeric.
    snm(8, 11, (1, 2, 0), (-128, 127)),
    snm(8, 21, (1, 1, 0), (-128, 127)),
    snm(8, 41, (4, 1, 0), (-128, 127)),
    snm(8, 51, (3, 2, 0), (-128, 127)),
    snm(8, 61, (6, 1, 0), (-128, 127)),
    // Section 9.6.1: state encoded. 06-1, 06-2, 08-4 and 08-5 have codes
    // between their states that are none; these are inside the limits.
    sed(2, 1, (0, 3)),
    sed(2, 2, (0, 3)),
    sed(2, 3, (0, 2)),
    sed(4, 1, (0, 7)),
    sed(4, 2, (0, 0x0C)),
    sed(6, 1, (0, 0x20)),
    sed(6, 2, (0, 0x25)),
    sed(8, 1, (1, 6)),
    sed(8, 2, (0, 7)),
    sed(8, 3, (1, 0x1F)),
    sed(8, 4, (0, 0x80)),
    sed(8, 5, (1, 0x10)),
    sed(8, 6, (1, 4)),
    sed(8, 7, (0, 2)),
    sed(8, 8, (0, 2)),
    sed(8, 9, (0, 2)),
    sed(8, 10, (0, 3)),
    sed(8, 11, (0, 1)),
    sed(8, 12, (0, 3)),
    sed(16, 1, (0, 1)),
    sed(16, 2, (0, 4)),
    sed(24, 1, (0, 1)),
    // Section 9.2.1: bit mapped.
    whole(BMP, 1, 1),
    whole(BMP, 8, 1),
    whole(BMP, 8, 2),
    whole(BMP, 8, 3),
    whole(BMP, 8, 4),
    whole(BMP, 8, 5),
    whole(BMP, 8, 6),
    whole(BMP, 8, 7),
    whole(BMP, 8, 8),
    whole(BMP, 16, 1),
    whole(BMP, 16, 2),
    whole(BMP, 32, 1),
    whole(BMP, 32, 2),
    whole(BMP, 32, 3),
    // Section 9.7.1: ASCII.
    whole(ASC, 8, 1),
    whole(ASC, 16, 1),
    whole(ASC, 24, 1),
    whole(ASC, 32, 1),
    whole(ASC, 40, 1),
    whole(ASC, 48, 1),
    whole(ASC, 56, 1),
    // Section 9.8.1: binary coded decimal.
    whole(BCD, 4, 1),
    whole(BCD, 8, 1),
    whole(BCD, 12, 1),
    whole(BCD, 16, 1),
    whole(BCD, 20, 1),
    whole(BCD, 24, 1),
    whole(BCD, 28, 1),
    whole(BCD, 32, 1),
    whole(BCD, 36, 1),
    whole(BCD, 40, 1),
    whole(BCD, 44, 1),
    whole(BCD, 48, 1),
    whole(BCD, 52, 1),
    whole(BCD, 56, 1),
];

/// Multiplier, divisor and offset.
type Scale = (u16, u16, i32);

const fn unm(width: u8, number: u16, scale: Scale, limits: (u32, u32)) -> Slot {
    Slot::new((UNM, width, number), scale, limits)
}

const fn snm(width: u8, number: u16, scale: Scale, limits: (i32, i32)) -> Slot {
    let patterns = (limits.0 as u32, limits.1 as u32);
    Slot::new((SNM, width, number), scale, patterns)
}

/// Zero fill.
const fn zeros(width: u8) -> Slot {
    Slot::new((UNM, width, 0), (0, 1, 0), (0, 0))
}

/// The limits are the lowest and the highest state.
const fn sed(width: u8, number: u16, limits: (u32, u32)) -> Slot {
    Slot::new((SED, width, number), (1, 1, 0), limits)
}

/// Every raw number of the width.
const fn whole(form: u8, width: u8, number: u16) -> Slot {
    Slot::new((form, width, number), (1, 1, 0), (0, all_ones(width)))
}
