//! The float helpers against libm, f64 and the hardware.

use super::Row;
use crate::ours;
use crate::random::Random;

const INPUTS: usize = 16_384;

pub fn rows(random: &mut Random) -> Vec<Row> {
    let squares = inputs(|| random.between(0.0, 1_048_576.0));
    let small = inputs(|| random.subnormal().abs());
    let offsets = inputs(|| random.between(-2_000.0, 2_000.0));
    let lanes = inputs(|| random.between(-700.0, 700.0));
    vec![
        Row::of_float("the loop alone", "", &squares, |x| x),
        Row::of_float("root", "Moorspindle", &squares, ours::root).of("root"),
        Row::of_float("root", "libm::sqrt", &squares, libm::sqrt),
        Row::of_float("root", "libm's in software", &squares, libm_software::sqrt),
        Row::of_float("root", "the hardware", &squares, f64::sqrt),
        Row::of_float("root of a subnormal", "Moorspindle", &small, ours::root).of("root"),
        Row::of_float("root of a subnormal", "libm::sqrt", &small, libm::sqrt),
        Row::of_float("root of a subnormal", "libm's in software", &small, libm_software::sqrt),
        Row::of_float("root of a subnormal", "the hardware", &small, f64::sqrt),
        Row::of_float("floor", "Moorspindle", &lanes, ours::floor).of("floor"),
        Row::of_float("floor", "f64::floor as i32", &lanes, |x| x.floor() as i32),
        Row::of_float("floor", "libm::floor as i32", &lanes, |x| libm::floor(x) as i32),
        Row::of_float("magnitude", "Moorspindle", &offsets, ours::magnitude).of("magnitude"),
        Row::of_float("magnitude", "libm::fabs", &offsets, libm::fabs),
        Row::of_float("power(u, 5)", "Moorspindle", &offsets, |u| ours::power(u, 5)).of("power"),
        Row::of_float("power(u, 5)", "libm::pow", &offsets, |u| libm::pow(u, 5.0)),
    ]
}

fn inputs(one: impl FnMut() -> f64) -> Vec<f64> {
    std::iter::repeat_with(one).take(INPUTS).collect()
}
