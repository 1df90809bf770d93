#[path = "../sources.rs"]
mod sources;
use sources::{edited, included, module, source, write};

/// A name, what stands in cd_matrix.rs once, and what a wrong port has there.
const WRONG: [(&str, &str, &str); 10] = [
    ("below", "let inlier_count = errs.iter().filter(|&&e| e <= inlier", "let inlier_count = errs.iter().filter(|&&e| e < inlier"),
    ("as_many", "if inlier_count > best_inliers {", "if inlier_count >= best_inliers && inlier_count > 0 {"),
    ("refit_more", "if refined >= inlier_count {", "if refined > inlier_count {"),
    ("refit_none", "if refined >= inlier_count {", "if refined > n {"),
    ("redraw", "        if a == b || b == c || a == c {", "        let b = if a == b { sample_pool[next_rand() as usize % sample_pool.len()] } else { b };\n        if a == b || b == c || a == c {"),
    ("above_third", "p.votes >= max_v / 3", "p.votes > max_v / 3"),
    ("rounds_9", "for iter in 0..10 {", "for iter in 0..9 {"),
    ("rounds_11", "for iter in 0..10 {", "for iter in 0..11 {"),
    ("square_first", "sum_sr2 += weights[i] * e * e;", "sum_sr2 += weights[i] * (e * e);"),
    ("at_threshold", "e * libm::sqrt(weights[i]) > threshold", "e * libm::sqrt(weights[i]) >= threshold"),
];

fn main() {
    let mut match_field = String::new();
    for name in ["aggregate", "hash_index", "verify"] {
        let file = source(&format!("celestial-solver/src/match_field/{name}.rs"));
        match_field += &module(name, &file);
    }
    write("match_field.rs", &match_field);

    let solution = source("celestial-solver/src/fit_wcs/solution.rs");
    write("solution.rs", &module("solution", &solution));

    let cd_matrix = source("celestial-solver/src/fit_wcs/cd_matrix.rs");
    write("cd_matrix.rs", &included(&cd_matrix));
    // the number of trials is a parameter of ours
    let trials = [("let max_trials = 1000;", 1, "let max_trials = crate::fit_wcs::trials::now();")];
    write("cd_matrix_trials.rs", &edited(&cd_matrix, &trials));
    // wrong ports, to find cases that tell them from the right one
    for (name, old, new) in WRONG {
        write(&format!("wrong_{name}.rs"), &edited(&cd_matrix, &[trials[0], (old, 1, new)]));
    }
    // libm's root is the hardware's on x86-64 and software on Arm: for the times, each on every host
    let hardware = [("libm::sqrt(", 7, "f64::sqrt(")];
    write("cd_matrix_hardware.rs", &edited(&cd_matrix, &hardware));
    let software = [("libm::sqrt(", 7, "libm_software::sqrt(")];
    write("cd_matrix_software.rs", &edited(&cd_matrix, &software));

    let sip = source("celestial-solver/src/fit_wcs/sip.rs");
    write("sip.rs", &included(&sip));
    // powers are repeated products, and terms are summed in the order of sip_monomial_terms
    let in_order = [
        ("libm::pow(", 4, "super::in_order::power("),
        ("use std::collections::HashMap;", 1, "use super::in_order::Map as HashMap;"),
    ];
    write("sip_in_order.rs", &edited(&sip, &in_order));
}
