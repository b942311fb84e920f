//! Coordinates of points, the special values of a float among them.

use crate::random::Random;

/// Small whole numbers, a cube's corners, fractions, special values, any bits, or a mixture.
pub fn coordinates(random: &mut Random, n: usize) -> Vec<f64> {
    let style = random.below(7);
    (0..n)
        .map(|i| coordinate(random, if style == 6 { i % 6 } else { style }, i))
        .collect()
}

fn coordinate(random: &mut Random, style: usize, i: usize) -> f64 {
    let unit = |random: &mut Random| (random.bits() >> 11) as f64 / (1u64 << 53) as f64;
    match style {
        0 => random.below(7) as f64 - 3.0,
        1 => {
            ((i / 3) >> (i % 3) & 1) as f64
                + if random.one_in(3) {
                    1e-13 * unit(random)
                } else {
                    0.0
                }
        }
        2 => unit(random) - 0.5,
        3 => special(random),
        4 => f64::from_bits(random.bits()),
        _ => {
            (random.below(1 << 21) as f64 - (1 << 20) as f64)
                * if random.one_in(9) { 1e-300 } else { 1.0 }
        }
    }
}

fn special(random: &mut Random) -> f64 {
    let bits = random.pick(&[
        0,
        1 << 63,
        1,
        (1 << 63) + 1,
        0x000f_ffff_ffff_ffff,
        0x0010_0000_0000_0000,
        0x7fef_ffff_ffff_ffff,
        0xffef_ffff_ffff_ffff,
        0x7ff0_0000_0000_0000,
        0xfff0_0000_0000_0000,
        0x7ff0_0000_0000_0001,
        0x7ff8_0000_0000_0000,
        0xfff8_0000_0000_0abc,
        0x7fff_ffff_ffff_ffff,
        0x3ff0_0000_0000_0000,
        0xbff0_0000_0000_0000,
        0x3d71_9799_812d_ea11,
        0x7e37_e43c_8800_759c,
    ]);
    f64::from_bits(bits)
}
