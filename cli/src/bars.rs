//! How often each weight is met, as bars.

use crate::svg::{open, put, step, text};
use std::collections::BTreeMap;

const WIDTH: f64 = 480.0;
const LEFT: f64 = 10.0;
const RIGHT: f64 = 470.0;
const TOP: f64 = 20.0;
const BASE: f64 = 120.0;
const BELOW: f64 = 44.0;
/// The widest bar, and the narrowest that has its number above it.
const WIDEST: f64 = 40.0;
const NAMED: f64 = 21.0;

/// Each weight that is met, and how often; `what` has the weights, and `told` says the same in words.
pub fn draw(met: &BTreeMap<usize, usize>, what: &str, told: &str) -> String {
    let (Some(low), Some(high), Some(most)) = (met.keys().next(), met.keys().last(), met.values().max()) else {
        return String::new();
    };
    let room = ((RIGHT - LEFT) / (high - low + 1) as f64).min(WIDEST);
    let middle = |weight: usize| LEFT + room * ((weight - low) as f64 + 0.5);
    let mut out = open((WIDTH, BASE + BELOW), told);
    for (weight, times) in met {
        let (tall, wide) = ((BASE - TOP) * *times as f64 / *most as f64, 0.8 * room);
        let (x, y) = (middle(*weight) - wide / 2.0, BASE - tall);
        put(&mut out, &format!("<rect class='bar' x='{x:.1}' y='{y:.1}' width='{wide:.1}' height='{tall:.1}'/>"));
        if room >= NAMED {
            put(&mut out, &text(middle(*weight), y - 5.0, "middle", 12, &times.to_string()));
        }
    }
    put(&mut out, &format!("<path class='frame' fill='none' d='M{LEFT} {BASE}H{RIGHT}'/>"));
    let between = step(room, NAMED);
    for weight in (*low..=*high).filter(|weight| weight % between == 0) {
        put(&mut out, &text(middle(weight), BASE + 17.0, "middle", 12, &weight.to_string()));
    }
    put(&mut out, &text(LEFT, BASE + 37.0, "start", 12, &format!("weight of a {what}")));
    put(&mut out, "</svg>");
    out
}
