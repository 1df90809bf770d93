//! The way of a frame through one side: each call is fed with what the calls before it gave.
//!
//! The limits are those of the Rust's drivers, match_field/mod.rs and fit_wcs/mod.rs. What they do
//! between the calls is written out here, once for both sides; but angles are in degrees, and what
//! is left of the middle moves the reference pixel, since nothing is projected anew.

use std::time::{Duration, Instant};

use super::file::Frame;
use super::side::Side;
use crate::case::Answer;
use crate::ours::matching::{Pairs, Quads, Rows, Voters};
use crate::ours::record::Solution;
use crate::ours::run::{Draw, Ran};
use crate::ours::sip::Lent;
use crate::theirs::sip::terms;

const NEIGHBOURS: u32 = 10;
const LIMIT: f64 = 5.0; // pixels
const TRIALS: u32 = 1000;
pub const ORDER: u32 = 3;

const MOST: usize = 100;
const MOST_QUADS: usize = 12_000;
const MOST_MATCHES: usize = 65_536;
const MOST_RECORD: usize = 1065;

/// What a lent output holds before the call.
const BYTE: u8 = 0xa5;
const WORD: u64 = 0xa5a5_a5a5_a5a5_a5a5;
const FLOAT: f64 = f64::from_bits(WORD);

/// A call and what it said: in words, and all that it answered and left in what was lent.
pub struct Step {
    pub name: &'static str,
    pub told: String,
    pub answer: Answer,
    pub time: Duration,
}

/// The number of a refusal, or what was asked for.
type Asked<T> = Result<T, u32>;

/// The steps of a side, up to the first that is refused.
pub struct Walk<'a> {
    side: &'a Side,
    frame: &'a Frame,
    pub steps: Vec<Step>,
}

struct QuadList {
    places: Vec<u8>,
    hashes: Vec<f64>,
}

/// Pairs, or those of them that are on.
#[derive(Clone)]
pub struct Table {
    pub lists: [Vec<f64>; 4],
    pub snr: Vec<f64>,
    weights: Vec<f64>,
    votes: Vec<u32>,
}

/// What the way ends with.
pub struct Solved {
    pub table: Table,
    pub wcs: [f64; 6],
    pub sip: Lent,
    pub record: String,
}

impl<'a> Walk<'a> {
    pub fn new(side: &'a Side, frame: &'a Frame) -> Walk<'a> {
        Walk { side, frame, steps: Vec::new() }
    }

    /// From the frame to the record.
    pub fn go(&mut self) -> Asked<Solved> {
        let pairs = self.pairs_of_the_better_way_up()?;
        let (mask, cd) = self.plate(&pairs)?;
        let (table, wcs) = (pairs.kept(&mask), self.about_reference_pixel(cd));
        self.errors(&table, &wcs)?;
        let sip = self.sip(&table, &wcs)?;
        let record = self.record(&wcs, &sip)?;
        Ok(Solved { table, wcs, sip, record })
    }

    /// Times a call that answers with its number, and adds the step that is told of it.
    fn step<T>(
        &mut self,
        name: &'static str,
        mut lent: T,
        call: impl FnOnce(&Side, &mut T) -> u32,
        told: impl FnOnce(&T, Answer) -> (String, Answer),
    ) -> Asked<T> {
        let start = Instant::now();
        let number = call(self.side, &mut lent);
        let time = start.elapsed();
        let (words, answer) = told(&lent, Answer::new().number(number));
        let told = if number == 0 { words } else { format!("refused: number {number}") };
        self.steps.push(Step { name, told, answer, time });
        if number == 0 { Ok(lent) } else { Err(number) }
    }

    // ---- quads, matches, pairs

    /// Both ways up of the picture are tried: the pairs of which more agree on an affine.
    fn pairs_of_the_better_way_up(&mut self) -> Asked<Table> {
        let Frame { detections, stars, width, height, scale } = self.frame;
        let (xi, eta): (Vec<f64>, Vec<f64>) = stars.iter().map(|star| (star.xi, star.eta)).unzip();
        let catalogue = self.quads("quads of the catalogue", &xi, &eta)?;
        let index = self.index(&catalogue)?;
        let (degrees, mut best, mut most) = (scale / 3600.0, Table::empty(), 0);
        for up in [-1.0, 1.0] {
            let x = detections.iter().map(|star| -(star.x - width / 2.0) * degrees);
            let y = detections.iter().map(|star| up * (star.y - height / 2.0) * degrees);
            let (x, y): (Vec<f64>, Vec<f64>) = (x.collect(), y.collect());
            let name = if up < 0.0 { "quads of the picture" } else { "quads of it, flipped" };
            let image = self.quads(name, &x, &y)?;
            let matches = self.matches(&image, &catalogue, &index)?;
            let pairs = self.pairs(&matches)?;
            let score = self.score(&pairs)?;
            if score > most {
                (best, most) = (pairs, score);
            }
        }
        Ok(best)
    }

    /// A twentieth of the search radius, which is 1.2 times half the picture's diagonal; squared.
    fn least_spine(&self) -> f64 {
        let Frame { width, height, scale, .. } = self.frame;
        let diagonal = libm::sqrt(width * width + height * height);
        let spine = diagonal * scale / 3600.0 / 2.0 * 1.2 * 0.05;
        spine * spine
    }

    fn quads(&mut self, name: &'static str, x: &[f64], y: &[f64]) -> Asked<QuadList> {
        let least = self.least_spine();
        let room = (vec![BYTE; 4 * MOST_QUADS], vec![FLOAT; 4 * MOST_QUADS], WORD);
        let (mut places, mut hashes, count) = self.step(
            name,
            room,
            |side, (places, hashes, count)| {
                (side.neighbor_quads)(x, y, NEIGHBOURS, least, places, hashes, count)
            },
            |(places, hashes, count), answer| {
                let answer = answer.numbers(places).floats(hashes).number(*count);
                (format!("{count} quads"), answer)
            },
        )?;
        places.truncate(4 * count as usize);
        hashes.truncate(4 * count as usize);
        Ok(QuadList { places, hashes })
    }

    /// It serves the picture both ways up.
    fn index(&mut self, catalogue: &QuadList) -> Asked<Vec<u64>> {
        self.step(
            "index of the catalogue",
            vec![WORD; 2 * MOST_QUADS],
            |side, table| (side.build_hash_index)(&catalogue.hashes, table),
            |table, answer| {
                (format!("{} entries", catalogue.hashes.len() / 4), answer.numbers(table))
            },
        )
    }

    fn matches(&mut self, image: &QuadList, catalogue: &QuadList, index: &[u64]) -> Asked<Vec<u8>> {
        let [image, catalogue] =
            [image, catalogue].map(|list| Quads { places: &list.places, hashes: &list.hashes });
        let (mut matches, found) = self.step(
            "matches",
            (vec![BYTE; 8 * MOST_MATCHES], WORD),
            |side, (matches, found)| {
                (side.find_matches_indexed)(image, catalogue, index, matches, found)
            },
            |(matches, found), answer| {
                (format!("{found} matches"), answer.numbers(matches).number(*found))
            },
        )?;
        matches.truncate(8 * found as usize);
        Ok(matches)
    }

    fn pairs(&mut self, matches: &[u8]) -> Asked<Table> {
        let voters = VoterLists::of(self.frame);
        let [px_x, px_y, ra, dec, snr] = [(); 5].map(|()| vec![FLOAT; MOST]);
        let room = Pairs { px_x, px_y, ra, dec, votes: vec![WORD as u32; MOST], snr };
        let (pairs, count) = self.step(
            "pairs",
            (room, WORD),
            |side, (pairs, count)| (side.extract_pairs)(matches, voters.lent(), pairs, count),
            |(pairs, count), answer| {
                let Pairs { px_x, px_y, ra, dec, votes, snr } = pairs;
                let lists = [px_x, px_y, ra, dec, snr];
                let answer = lists.into_iter().fold(answer, |answer, list| answer.floats(list));
                let told = match votes.get(..*count as usize) {
                    Some([most, .., least]) => format!("{count} pairs of {most} to {least} votes"),
                    _ => format!("{count} pairs"),
                };
                (told, answer.numbers(votes).number(*count))
            },
        )?;
        Ok(Table::of(pairs, count as usize))
    }

    fn score(&mut self, pairs: &Table) -> Asked<u64> {
        self.step(
            "affine score",
            WORD,
            |side, score| (side.verify_pairs)(pairs.rows(), score),
            |score, answer| (format!("{score} pairs agree"), answer.number(*score)),
        )
    }

    // ---- the plate

    /// Which rows are on after the run and the clip, and their plate. Pixels are from the middle.
    fn plate(&mut self, pairs: &Table) -> Asked<(Vec<u8>, Vec<f64>)> {
        let rows = pairs.about(self.frame.width / 2.0, self.frame.height / 2.0);
        let mask = self.run(&rows)?;
        let cd = self.fit("weighted fit", &rows, &mask)?;
        let (mask, _) = self.step(
            "clip",
            (mask, cd),
            |side, (mask, cd)| (side.sigma_clip)(rows.rows(), mask, cd, &rows.weights),
            |(mask, cd), answer| {
                let on = mask.iter().filter(|&&byte| byte == 1).count();
                (format!("{on} rows on"), answer.numbers(mask).floats(cd))
            },
        )?;
        let cd = self.fit("fit after the clip", &rows, &mask)?;
        Ok((mask, cd))
    }

    fn run(&mut self, rows: &Table) -> Asked<Vec<u8>> {
        let draw = Draw { votes: &rows.votes, limit: LIMIT, trials: TRIALS };
        let n = rows.votes.len();
        let (mask, _) = self.step(
            "run",
            (vec![BYTE; n], Ran { tested: BYTE, on: WORD }),
            |side, (mask, ran)| (side.ransac_fit)(rows.rows(), draw, mask, ran),
            |(mask, ran), answer| {
                let told = format!("{} of {n} rows within {LIMIT} pixels", ran.on);
                (told, answer.numbers(mask).number(ran.tested).number(ran.on))
            },
        )?;
        Ok(mask)
    }

    fn fit(&mut self, name: &'static str, rows: &Table, mask: &[u8]) -> Asked<Vec<f64>> {
        self.step(
            name,
            vec![FLOAT; 6],
            |side, cd| (side.fit_cd_weighted)(rows.rows(), mask, &rows.weights, cd),
            |cd, answer| {
                let scale = 3600.0 * (cd[0] * cd[4] - cd[1] * cd[3]).abs().sqrt();
                (format!("{scale:.4} arcsec a pixel"), answer.floats(cd))
            },
        )
    }

    /// The plate's factors, about the pixel that it takes to the middle of the plane.
    fn about_reference_pixel(&self, cd: Vec<f64>) -> [f64; 6] {
        let det = cd[0] * cd[4] - cd[1] * cd[3];
        let crpix1 = self.frame.width / 2.0 + (cd[1] * cd[5] - cd[4] * cd[2]) / det;
        let crpix2 = self.frame.height / 2.0 + (cd[3] * cd[2] - cd[0] * cd[5]) / det;
        [crpix1, crpix2, cd[0], cd[1], cd[3], cd[4]]
    }

    fn errors(&mut self, table: &Table, wcs: &[f64]) -> Asked<()> {
        let ([_, _, mut err_px], count) = self.step(
            "residuals",
            ([(); 3].map(|()| vec![FLOAT; MOST]), WORD),
            |side, (errors, count)| (side.compute_residuals)(table.rows(), wcs, errors, count),
            |(errors, count), answer| {
                let answer = errors.iter().fold(answer, |answer, list| answer.floats(list));
                (format!("{count} residuals"), answer.number(*count))
            },
        )?;
        err_px.truncate(count as usize);
        let told = |rms: &f64, answer: Answer| (format!("{rms:.3} pixels"), answer.float(*rms));
        self.step("rms", FLOAT, |side, rms| (side.rms_error)(&err_px, rms), told)?;
        let weights = &table.weights;
        let weighted =
            |side: &Side, rms: &mut f64| (side.weighted_rms_error)(&err_px, weights, rms);
        self.step("weighted rms", FLOAT, weighted, told)?;
        Ok(())
    }

    // ---- SIP and the record

    fn sip(&mut self, table: &Table, wcs: &[f64]) -> Asked<Lent> {
        self.step(
            "SIP fit",
            room_for_sip(),
            |side, lent| (side.fit_sip)(table.rows(), &table.snr, wcs, ORDER, lent),
            |lent, answer| {
                let told = format!("{} rows, rms {:.3} pixels", lent.rows_used, lent.sums[1]);
                let answer = answer.floats(&lent.a).floats(&lent.b);
                (told, answer.number(lent.rows_used).floats(&lent.sums))
            },
        )
    }

    fn record(&mut self, wcs: &[f64], sip: &Lent) -> Asked<String> {
        let Lent { a, b, rows_used, sums } = sip;
        let solution = Solution { rows_used: *rows_used, wcs, order: ORDER, a, b, sums };
        let (mut text, written) = self.step(
            "record",
            (vec![BYTE; MOST_RECORD], WORD),
            |side, (text, written)| (side.write_record)(solution, text, written),
            |(text, written), answer| {
                (format!("{written} bytes"), answer.numbers(text).number(*written))
            },
        )?;
        text.truncate(written as usize);
        Ok(String::from_utf8_lossy(&text).into_owned())
    }
}

pub fn room_for_sip() -> Lent {
    let [a, b] = [(); 2].map(|()| vec![FLOAT; terms(ORDER)]);
    Lent { a, b, rows_used: WORD, sums: vec![FLOAT; 3] }
}

impl Table {
    fn empty() -> Table {
        let lists = [const { Vec::new() }; 4];
        Table { lists, snr: Vec::new(), weights: Vec::new(), votes: Vec::new() }
    }

    fn of(pairs: Pairs, count: usize) -> Table {
        let Pairs { px_x, px_y, ra, dec, mut votes, mut snr } = pairs;
        let lists = [px_x, px_y, ra, dec].map(|list| list[..count].to_vec());
        votes.truncate(count);
        snr.truncate(count);
        let weights = snr.iter().map(|snr| snr * snr).collect();
        Table { lists, snr, weights, votes }
    }

    pub fn rows(&self) -> Rows<'_> {
        self.lists.each_ref().map(Vec::as_slice)
    }

    /// Pixels are from this one.
    fn about(&self, x: f64, y: f64) -> Table {
        let mut table = self.clone();
        table.lists[0].iter_mut().for_each(|px| *px -= x);
        table.lists[1].iter_mut().for_each(|py| *py -= y);
        table
    }

    fn kept(&self, mask: &[u8]) -> Table {
        let on = |list: &Vec<f64>| -> Vec<f64> {
            list.iter().zip(mask).filter(|&(_, &byte)| byte == 1).map(|(&x, _)| x).collect()
        };
        let lists = self.lists.each_ref().map(on);
        Table { lists, snr: on(&self.snr), weights: on(&self.weights), votes: Vec::new() }
    }
}

/// Lists of what votes: detections as the detector has them, image stars with the brightest first.
struct VoterLists {
    detections: [Vec<f64>; 3],
    image_ids: Vec<u32>,
    stars: [Vec<f64>; 2],
    catalogue_ids: Vec<i64>,
}

impl VoterLists {
    fn of(frame: &Frame) -> VoterLists {
        let mut detections = [(); 3].map(|()| vec![0.0; frame.detections.len()]);
        for star in &frame.detections {
            for (list, x) in detections.iter_mut().zip([star.x, star.y, star.snr]) {
                list[star.id as usize] = x;
            }
        }
        let (xi, eta) = frame.stars.iter().map(|star| (star.xi, star.eta)).unzip();
        VoterLists {
            detections,
            image_ids: frame.detections.iter().map(|star| star.id).collect(),
            stars: [xi, eta],
            catalogue_ids: frame.stars.iter().map(|star| star.id).collect(),
        }
    }

    fn lent(&self) -> Voters<'_> {
        let [det_x, det_y, det_snr] = self.detections.each_ref().map(Vec::as_slice);
        let [result_ra, result_dec] = self.stars.each_ref().map(Vec::as_slice);
        Voters {
            det_x,
            det_y,
            det_snr,
            image_ids: &self.image_ids,
            catalogue_ids: &self.catalogue_ids,
            result_ids: &self.catalogue_ids,
            result_ra,
            result_dec,
        }
    }
}
