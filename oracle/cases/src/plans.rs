//! Four floats for a plan: two sizes, unit, radius.

use crate::draw::{Draw, Use};

const SPECIAL: [f32; 22] = [
    f32::NAN,
    f32::INFINITY,
    f32::NEG_INFINITY,
    0.0,
    -0.0,
    1.0,
    -1.0,
    2.0,
    0.1,
    0.3,
    9.0,
    9.5,
    10.0,
    100.0,
    109.0,
    110.0,
    f32::MIN_POSITIVE,
    f32::MAX,
    f32::MIN,
    f32::EPSILON,
    f32::from_bits(1),
    f32::from_bits(0x007f_ffff),
];

const UNITS: [f32; 10] = [1.0, 0.1, 0.07, 0.3, 0.5, 0.7, 1.1, 3.0, 10.0, 33.3];

/// The plan of this seed and number.
pub fn plan(seed: u64, case: u64) -> [f32; 4] {
    let mut draw = Draw::new(seed, case, Use::Plan);
    let mut values = match draw.below(10) {
        0 => [0; 4].map(|_| draw.pick(&SPECIAL)),
        1 => [0; 4].map(|_| any_float(&mut draw)),
        2 => [0; 4].map(|_| power_of_two(&mut draw)),
        _ => near_whole(&mut draw),
    };
    if draw.percent(8) {
        values[draw.below(4)] = draw.pick(&SPECIAL);
    }
    if draw.percent(4) {
        values[draw.below(4)] = any_float(&mut draw);
    }
    values
}

/// Any bits.
fn any_float(draw: &mut Draw) -> f32 {
    f32::from_bits(draw.bits() as u32)
}

/// A power of two between the smallest and the largest float.
fn power_of_two(draw: &mut Draw) -> f32 {
    let power = draw.from_to(0, 276) as i32 - 149;
    2.0_f64.powi(power) as f32
}

/// Quotients at or next to whole numbers, in units of any size.
fn near_whole(draw: &mut Draw) -> [f32; 4] {
    let unit = match draw.below(4) {
        0 | 1 => draw.pick(&UNITS),
        2 => (1 + draw.below(1 << 24)) as f32 / (1 << 20) as f32,
        _ => any_float(draw).abs(),
    };
    let length = unit * 10.0;
    let sectors = |draw: &mut Draw| draw.from_to(0, 12) as f32 + draw.pick(&[0.0, 0.0, 0.5, 0.999]);
    let size_x = nudge(length * sectors(draw), draw);
    let size_y = nudge(length * sectors(draw), draw);
    let cells = draw.from_to(0, 10) as f32 + draw.pick(&[0.0, 0.0, 0.25, 0.75]);
    let radius = match draw.below(30) {
        0 => unit * f32::from_bits(draw.below(1 << 23) as u32),
        _ => nudge(unit * cells, draw),
    };
    [size_x, size_y, unit, radius]
}

/// The float itself or one a few places beside it.
fn nudge(value: f32, draw: &mut Draw) -> f32 {
    let by = draw.pick(&[0, 0, 0, 1, 1, 2, 5]);
    let bits = value.to_bits();
    f32::from_bits(match draw.percent(50) {
        true => bits.saturating_add(by),
        false => bits.saturating_sub(by),
    })
}
