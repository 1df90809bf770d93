//! A frame's file, as examples/frame.txt is one.

use std::fmt::Display;
use std::str::FromStr;

use crate::Outcome;
use crate::case::parse_float;

/// The detections of a picture, and the stars of a catalogue, projected.
#[derive(Clone, Default)]
pub struct Frame {
    pub width: f64,
    pub height: f64,
    /// Arcsec a pixel.
    pub scale: f64,
    /// The brightest first.
    pub detections: Vec<Detection>,
    pub stars: Vec<Star>,
}

#[derive(Clone)]
pub struct Detection {
    /// Its place in the detector's list.
    pub id: u32,
    pub x: f64,
    pub y: f64,
    pub snr: f64,
    /// The star that it is of, by the file's remark.
    pub of: i64,
}

#[derive(Clone)]
pub struct Star {
    pub id: i64,
    pub xi: f64,
    pub eta: f64,
}

impl Frame {
    pub fn parse(text: &str) -> Outcome<Frame> {
        let mut frame = Frame::default();
        for (place, line) in text.lines().enumerate() {
            frame.take(line).map_err(|problem| format!("line {}: {problem}", place + 1))?;
        }
        let ids = |frame: &Frame| frame.detections.iter().map(|star| star.id).max();
        if ids(&frame).is_some_and(|id| id as usize >= frame.detections.len()) {
            return Err("a detection's id is outside the detector's list".to_string());
        }
        Ok(frame)
    }

    fn take(&mut self, line: &str) -> Outcome<()> {
        let (line, remark) = line.split_once('#').unwrap_or((line, ""));
        let (kind, fields) = line.trim_end().split_once('=').unwrap_or((line, ""));
        match (kind, fields.split(',').collect::<Vec<_>>().as_slice()) {
            ("picture", [width, height, scale]) => {
                (self.width, self.height) = (number(width)?, number(height)?);
                self.scale = parse_float(scale)?;
            }
            ("detection", [id, x, y, snr]) => self.detections.push(Detection {
                id: number(id)?,
                x: parse_float(x)?,
                y: parse_float(y)?,
                snr: parse_float(snr)?,
                of: number(remark.trim_start_matches(" of "))?,
            }),
            ("star", [id, xi, eta]) => self.stars.push(Star {
                id: number(id)?,
                xi: parse_float(xi)?,
                eta: parse_float(eta)?,
            }),
            ("", _) => {}
            _ => return Err(format!("{line} is not in its form")),
        }
        Ok(())
    }
}

fn number<T: FromStr<Err: Display>>(word: &str) -> Outcome<T> {
    word.parse().map_err(|problem| format!("{word}: {problem}"))
}
