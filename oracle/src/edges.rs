//! Floats at the edges, for the cases of every call that takes any float.

/// Of each kind: zeros, ones, infinities, NaNs quiet and signalling, the ends of the subnormals
/// and of the normals; each of both signs.
pub fn specials() -> Vec<f64> {
    let positive = [
        0x0000_0000_0000_0000, // zero
        0x0000_0000_0000_0001, // the least subnormal
        0x0000_0000_0000_0002,
        0x0008_0000_0000_0000, // a fraction's highest bit alone
        0x000f_ffff_ffff_ffff, // the greatest subnormal
        0x0010_0000_0000_0000, // the least normal
        0x0010_0000_0000_0001,
        0x3fef_ffff_ffff_ffff,
        0x3ff0_0000_0000_0000, // one
        0x3ff0_0000_0000_0001,
        0x7fef_ffff_ffff_fffe,
        0x7fef_ffff_ffff_ffff, // the greatest normal
        0x7ff0_0000_0000_0000, // infinity
        0x7ff0_0000_0000_0001, // signalling NaNs
        0x7ff4_0000_0000_0000,
        0x7ff7_ffff_ffff_ffff,
        0x7ff8_0000_0000_0000, // quiet NaNs
        0x7ff8_0000_0000_0001,
        0x7fff_ffff_ffff_ffff,
    ];
    let both = |bits: u64| [f64::from_bits(bits), f64::from_bits(bits | 1 << 63)];
    positive.into_iter().flat_map(both).collect()
}

/// A float and the floats next to it.
pub fn around(x: f64) -> [f64; 3] {
    [x.next_down(), x, x.next_up()]
}

/// Each `every`-th power of two, 2^-1074 to 2^1023, with its neighbours.
pub fn powers_of_two(every: usize) -> impl Iterator<Item = f64> {
    let subnormal = (0..52).map(|place| f64::from_bits(1 << place));
    let normal = (1..2047).map(|exponent| f64::from_bits(exponent << 52));
    subnormal.chain(normal).step_by(every).flat_map(around)
}

/// Exact squares with their neighbours: of small whole numbers and quarters, of the greatest whole
/// numbers whose square is exact, of numbers of few digits anywhere in the range.
pub fn squares(every: usize) -> impl Iterator<Item = f64> {
    let small = (1..=400).step_by(every).map(|n| f64::from(n) / 4.0);
    let widest = (94_906_200..=94_906_265).step_by(every).map(f64::from); // root of 2^53
    let ends = [67_108_863.0, 67_108_864.0, 67_108_865.0]; // 2^26
    let scaled = (-500..=500).step_by(every.max(5)).flat_map(|power| {
        let scale = 2f64.powi(power);
        [3.0 * scale, 94_906_265.0 * scale]
    });
    let roots = small.chain(widest).chain(ends).chain(scaled);
    roots.map(|root| root * root).flat_map(around)
}

/// Quarter steps around whole numbers, and the floats next to the whole ones: small ones (each
/// `every`-th), and those at the ends of the i32 range and of the whole floats.
pub fn steps(every: usize) -> impl Iterator<Item = f64> {
    let small = (0..=100).step_by(every).chain([1, 2, 99, 100]);
    let ends = [31, 32, 52, 53, 63].map(|power| 2f64.powi(power));
    let held = [2_147_483_646.0, 2_147_483_647.0, 2_147_483_649.0];
    let whole = small.map(f64::from).chain(ends).chain(held);
    whole.flat_map(|n| [n, -n]).flat_map(|n| {
        let quarters = (-4..=4).map(move |quarter| n + f64::from(quarter) / 4.0);
        quarters.chain(around(n))
    })
}

/// Numbers of a hash: each `every`-th hundredth, rounded to a float, the settled examples and the
/// ends of what a lane holds; each with its neighbours.
pub fn hash_numbers(every: usize) -> impl Iterator<Item = f64> {
    let hundredths = (-700..=700).step_by(every).map(|n| f64::from(n) / 100.0);
    let settled = [-0.001, -5.5, 655.0, 1e300, -1e300];
    let held = [21_474_836.47, 21_474_836.48]; // the ends of the i32 range
    let ends = settled.into_iter().chain(held.into_iter().flat_map(|x| [x, -x]));
    hundredths.chain(ends).flat_map(around)
}

/// What a lane of a key takes the floor of: 100 times a number of a hash.
pub fn lanes(every: usize) -> impl Iterator<Item = f64> {
    hash_numbers(every).map(|v| v * 100.0)
}
