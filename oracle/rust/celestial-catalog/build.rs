#[path = "../sources.rs"]
mod sources;
use sources::{included, source, write};

fn main() {
    let quad = source("celestial-catalog/src/query/quad.rs");
    write("quad.rs", &included(&quad));
}
