#[path = "../sources.rs"]
mod sources;
use sources::{edited, libm, write};

fn main() {
    // `any()` of nothing is false: the file then takes its software branch on every host
    let sqrt = edited(&libm("src/math/sqrt.rs"), &[("target_feature = \"sse2\"", 2, "any()")]);
    write("sqrt.rs", &sqrt);
}
