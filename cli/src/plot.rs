//! The picture of a measurement: curves of shares on a logarithmic axis, with bars of confidence.

use crate::frame::{Frame, Paper, BELOW, FILE, LEGEND};
use crate::interval::Interval;
use crate::svg::{escaped, put, text, FONTS, INK};
use std::fmt::Write;

/// A share at a place of the axis, and on how many words it was seen.
#[derive(Clone, Copy)]
pub struct Dot {
    pub at: f64,
    pub found: Interval,
    pub seen: u64,
}

/// The axis below the curves.
pub struct Axis {
    pub name: &'static str,
    pub low: f64,
    pub high: f64,
    /// The numbers that are written, and those at which a reader who does not see the picture is told the shares.
    pub marks: Vec<f64>,
    pub told: Vec<f64>,
    pub decimals: usize,
}

/// A matrix, and where the channel's limit is.
pub struct Group {
    pub name: String,
    pub sizes: String,
    pub limit: Option<f64>,
}

/// Shares of one kind: what they are, what is said where all are 0, and the curves of each matrix, one for each way.
pub struct Panel {
    pub what: &'static str,
    pub nothing: &'static str,
    pub curves: Vec<Vec<Vec<Dot>>>,
}

/// The panels stand below each other.
pub struct Picture {
    pub title: String,
    pub subtitle: String,
    pub axis: Axis,
    pub ways: &'static [&'static str],
    pub groups: Vec<Group>,
    pub panels: Vec<Panel>,
}

/// How a curve is drawn. The wide one lies below the others, so that curves that fall together can be told apart.
struct Style {
    colour: &'static str,
    line: &'static str,
    mark: Mark,
}

#[derive(Clone, Copy)]
enum Mark {
    None,
    Circle,
    Square,
}

/// The colours of the ways where there is one matrix, and else those of the matrices.
const WAYS: [&str; 3] = ["#c04a00", "#0064a6", "#7fd0b5"];
pub const MATRICES: [&str; 6] = ["#c04a00", "#0064a6", "#2a8a5f", "#8a3fa0", "#9a7400", "#555555"];
const LINES: [&str; 3] =
    ["stroke-width='1.5'", "stroke-width='1.5' stroke-dasharray='7 4'", "stroke-width='7' stroke-linecap='round'"];
const PALE: &str = "stroke-width='7' stroke-linecap='round' stroke-opacity='0.3'";
const MARKS: [Mark; 3] = [Mark::Circle, Mark::Square, Mark::None];
const LIMIT: &str = "stroke-width='1.5' stroke-dasharray='2 4'";

/// The decades that the logarithmic axis has at least and at most.
const DECADES_LEAST: i32 = 2;
const DECADES_MOST: i32 = 9;

/// A share that was seen on fewer words is drawn faintly.
const FEW: u64 = 10;

/// The most characters of a title, of a line below it in its usual size, and of a name in the legend.
const TITLE_MOST: usize = 38;
const SUBTITLE_MOST: usize = 110;
const NAME_MOST: usize = 24;

/// How many decades below 1 the axis needs: down to the shares that were seen often enough, and to the upper ends of
/// the others. What lies deeper is not known well enough to be drawn.
fn decades(panel: &Panel) -> i32 {
    let dots = panel.curves.iter().flatten().flatten();
    let known = dots.map(|dot| if dot.seen < FEW { dot.found.high } else { dot.found.share });
    let least = known.fold(1.0, f64::min);
    (-least.log10().floor() as i32).clamp(DECADES_LEAST, DECADES_MOST)
}

/// The picture as a file of its own.
pub fn draw(picture: &Picture) -> String {
    draw_on(&FILE, picture)
}

pub fn draw_on(paper: &Paper, picture: &Picture) -> String {
    let lines = if picture.groups.len() > 1 { picture.groups.len() } else { 0 };
    let span = (picture.axis.low, picture.axis.high);
    let frame = |(number, panel)| Frame::new(paper, span, lines, number, decades(panel));
    let frames: Vec<Frame> = picture.panels.iter().enumerate().map(frame).collect();
    let mut out = String::new();
    head(&mut out, picture, paper, frames.last().map_or(0.0, Frame::bottom) + BELOW);
    for (panel, frame) in picture.panels.iter().zip(&frames) {
        draw_panel(&mut out, picture, panel, frame);
    }
    legend(&mut out, picture, paper);
    put(&mut out, "</svg>");
    out
}

fn draw_panel(out: &mut String, picture: &Picture, panel: &Panel, frame: &Frame) {
    grid(out, picture, frame);
    for (number, curves) in panel.curves.iter().enumerate() {
        limit(out, picture, frame, number);
        for way in (0..curves.len()).rev() {
            curve(out, &style(picture, number, way), &curves[way], frame);
        }
    }
    let Paper { left, right, depth, .. } = frame.paper;
    let (width, top) = (right - left, frame.top);
    put(out, &format!("<rect x='{left}' y='{top}' width='{width}' height='{depth}' fill='none' stroke='#444444'/>"));
    if panel.curves.iter().flatten().flatten().all(|dot| dot.seen == 0) {
        put(out, &text(frame.middle(), top + depth / 2.0 - 24.0, "middle", 15, panel.nothing));
    }
    axes(out, picture, panel, frame);
}

fn style(picture: &Picture, group: usize, way: usize) -> Style {
    let (line, mark) = (LINES[way], MARKS[way]);
    if picture.groups.len() == 1 {
        return Style { colour: WAYS[way], line, mark };
    }
    Style { colour: MATRICES[group % MATRICES.len()], line: if way == 2 { PALE } else { line }, mark }
}

/// A title or a name, short enough for its room.
fn short(title: &str, most: usize) -> String {
    match title.char_indices().nth(most) {
        Some((end, _)) => format!("{}..", &title[..end]),
        None => title.to_string(),
    }
}

/// What a reader who does not see the picture is told.
fn description(picture: &Picture) -> String {
    let mut told = format!("{}.", picture.subtitle);
    for (number, group) in picture.groups.iter().enumerate() {
        let _ = write!(told, " {}: {}.", group.name, group.sizes);
        if let Some(limit) = group.limit {
            let _ = write!(told, " The channel's limit is at {limit:.3}.");
        }
        for panel in &picture.panels {
            if picture.panels.len() > 1 {
                let _ = write!(told, " The {}.", panel.what);
            }
            told.push_str(&shares(picture, &panel.curves[number]));
        }
    }
    told
}

/// The shares of a matrix at some places.
fn shares(picture: &Picture, curves: &[Vec<Dot>]) -> String {
    let mut told = String::new();
    for &place in &picture.axis.told {
        let near = |dot: &&Dot| (dot.at - place).abs() < 0.001;
        let share = |curve: &Vec<Dot>| curve.iter().find(near).map_or(0.0, |dot| dot.found.share);
        let shares = curves.iter().zip(picture.ways);
        let shares: Vec<String> = shares.map(|(curve, way)| format!("{way} {:.2e}", share(curve))).collect();
        let _ = write!(told, " At {place}: {}.", shares.join(", "));
    }
    told
}

fn head(out: &mut String, picture: &Picture, paper: &Paper, height: f64) {
    let Paper { width, left, front, .. } = paper;
    let (title, told) = (escaped(&picture.title), escaped(&description(picture)));
    put(
        out,
        &format!(
            "<svg xmlns='http://www.w3.org/2000/svg' width='{width}' height='{height}' viewBox='0 0 {width} {height}' \
             role='img' aria-labelledby='{front}title {front}desc' font-family='{FONTS}' fill='{INK}'>"
        ),
    );
    let what: Vec<&str> = picture.panels.iter().map(|panel| panel.what).collect();
    let (what, over) = (what.join(" and "), picture.axis.name);
    put(out, &format!("<title id='{front}title'>{what} over {over}: {title}</title>"));
    put(out, &format!("<desc id='{front}desc'>{told}</desc>"));
    put(out, &format!("<rect width='{width}' height='{height}' fill='#ffffff'/>"));
    if paper.title {
        put(out, &text(*left, 30.0, "start", 18, &short(&picture.title, TITLE_MOST)));
        let size = if picture.subtitle.chars().count() > SUBTITLE_MOST { 10 } else { 12 };
        put(out, &text(*left, 52.0, "start", size, &picture.subtitle));
    }
}

/// Lines at the numbers of the axes, and fainter ones between decades.
fn grid(out: &mut String, picture: &Picture, frame: &Frame) {
    let Paper { left, right, .. } = frame.paper;
    let mut across = |share: f64, colour: &str| {
        let at = frame.y(share);
        put(out, &format!("<line x1='{left}' y1='{at:.1}' x2='{right}' y2='{at:.1}' stroke='{colour}'/>"));
    };
    for decade in 0..frame.decades {
        let least = 10f64.powi(-decade - 1);
        (2..10).for_each(|times| across(f64::from(times) * least, "#f0f0f0"));
        across(10.0 * least, "#c8c8c8");
    }
    let (top, bottom) = (frame.top, frame.bottom());
    for &mark in &picture.axis.marks {
        let at = frame.x(mark);
        put(out, &format!("<line x1='{at:.1}' y1='{top}' x2='{at:.1}' y2='{bottom}' stroke='#dcdcdc'/>"));
    }
}

fn limit(out: &mut String, picture: &Picture, frame: &Frame, group: usize) {
    let Some(limit) = picture.groups[group].limit else { return };
    let colour = if picture.groups.len() == 1 { INK } else { style(picture, group, 0).colour };
    let (at, top, bottom) = (frame.x(limit), frame.top, frame.bottom());
    put(out, &format!("<line x1='{at:.1}' y1='{top}' x2='{at:.1}' y2='{bottom}' stroke='{colour}' {LIMIT}/>"));
}

/// The curve where it was seen, its bars, and arrows down from the upper bounds where nothing was.
fn curve(out: &mut String, style: &Style, dots: &[Dot], frame: &Frame) {
    let (mut sure, mut faint, mut bars, mut bounds) = (String::new(), String::new(), String::new(), String::new());
    let drawn = |dot: &Dot| dot.seen > 0 && frame.has(dot.found.share);
    let place = |dot: &Dot| (frame.x(dot.at), frame.y(dot.found.share));
    for pair in dots.windows(2).filter(|pair| pair.iter().all(drawn)) {
        let ((x1, y1), (x2, y2)) = (place(&pair[0]), place(&pair[1]));
        let few = pair.iter().any(|dot| dot.seen < FEW);
        let path = if few { &mut faint } else { &mut sure };
        let end = format!("{x1:.1} {y1:.1} ");
        let lead = if path.ends_with(&end) { String::new() } else { format!("M{end}") };
        let _ = write!(path, "{lead}L{x2:.1} {y2:.1} ");
    }
    for dot in dots {
        let (x, high, low) = (frame.x(dot.at), frame.y(dot.found.high), frame.y(dot.found.low));
        let _ = match dot.seen {
            0 => write!(bounds, "M{:.1} {high:.1} h5 m-2.5 0 v7 m-2 -3 l2 3 l2 -3 ", x - 2.5),
            _ => write!(bars, "M{x:.1} {high:.1} V{low:.1} "),
        };
    }
    stroke(out, style, &sure, style.line);
    stroke(out, style, &faint, "stroke-width='1' stroke-opacity='0.5' stroke-dasharray='1 3'");
    stroke(out, style, &bars, "stroke-width='1.2' stroke-opacity='0.8'");
    stroke(out, style, &bounds, "stroke-width='1'");
    dots.iter().filter(|dot| drawn(dot)).for_each(|dot| mark(out, style, place(dot), dot.seen < FEW));
}

fn stroke(out: &mut String, style: &Style, path: &str, line: &str) {
    if !path.is_empty() {
        put(out, &format!("<path d='{}' fill='none' stroke='{}' {line}/>", path.trim_end(), style.colour));
    }
}

/// The mark of a point; one that was seen on few words is hollow and round.
fn mark(out: &mut String, style: &Style, (x, y): (f64, f64), few: bool) {
    let colour = style.colour;
    let hollow = format!("fill='#ffffff' stroke='{colour}' stroke-width='1.3'");
    match style.mark {
        _ if few => put(out, &format!("<circle cx='{x:.1}' cy='{y:.1}' r='2' {hollow}/>")),
        Mark::None => {}
        Mark::Circle => put(out, &format!("<circle cx='{x:.1}' cy='{y:.1}' r='2.4' fill='{colour}'/>")),
        Mark::Square => {
            let (x, y) = (x - 3.0, y - 3.0);
            put(out, &format!("<rect x='{x:.1}' y='{y:.1}' width='6' height='6' {hollow}/>"));
        }
    }
}

/// The number at a decade of the axis: written out, and from the fourth on as a power of ten.
fn decade_name(x: f64, y: f64, decade: i32) -> String {
    if decade < 4 {
        return text(x, y, "end", 13, &format!("{:.*}", decade as usize, 10f64.powi(-decade)));
    }
    let power = format!("10<tspan dy='-5' font-size='10'>-{decade}</tspan>");
    format!("<text x='{x:.1}' y='{y:.1}' text-anchor='end' font-size='13'>{power}</text>")
}

/// The numbers at the axes, and what the axes are.
fn axes(out: &mut String, picture: &Picture, panel: &Panel, frame: &Frame) {
    let (axis, bottom, paper) = (&picture.axis, frame.bottom(), frame.paper);
    for &mark in &axis.marks {
        put(out, &text(frame.x(mark), bottom + 20.0, "middle", 13, &format!("{mark:.*}", axis.decimals)));
    }
    for decade in 0..=frame.decades {
        let at = frame.y(10f64.powi(-decade)) + 4.5;
        put(out, &decade_name(paper.left - 8.0, at, decade));
    }
    put(out, &text(frame.middle(), bottom + 46.0, "middle", 14, axis.name));
    put(out, &text(paper.right, bottom + 46.0, "end", 11, "bars: 95 % confidence"));
    let (at, middle, what) = (paper.what, frame.top + paper.depth / 2.0, panel.what);
    put(
        out,
        &format!(
            "<text transform='translate({at} {middle:.1}) rotate(-90)' text-anchor='middle' font-size='14'>{what}</text>"
        ),
    );
}

const SAMPLE: f64 = 34.0;

/// The names of the ways in a row above the curves, and below it a row for each matrix where there are several.
fn legend(out: &mut String, picture: &Picture, paper: &Paper) {
    let Paper { left, names: at, .. } = *paper;
    let several = picture.groups.len() > 1;
    for ((way, name), left) in picture.ways.iter().enumerate().zip([left, left + 110.0, left + 242.0]) {
        let mut style = style(picture, 0, way);
        if several {
            style.colour = INK;
        }
        stroke(out, &style, &format!("M{left} {at} L{} {at}", left + SAMPLE), style.line);
        mark(out, &style, (left + SAMPLE / 2.0, at), false);
        put(out, &text(left + SAMPLE + 8.0, at + 4.5, "start", 13, name));
    }
    if let Some(limit) = picture.groups[0].limit {
        let (left, at) = paper.limit;
        put(out, &format!("<line x1='{left}' y1='{at}' x2='{}' y2='{at}' stroke='{INK}' {LIMIT}/>", left + SAMPLE));
        let value = if several { String::new() } else { format!(" = {limit:.3}") };
        let limit = format!("limit of the channel, 1 - rate{value}");
        put(out, &text(left + SAMPLE + 8.0, at + 4.5, "start", 13, &limit));
    }
    for (number, group) in picture.groups.iter().enumerate().filter(|_| several) {
        let (at, colour) = (at + LEGEND * (number + 1) as f64, style(picture, number, 0).colour);
        put(out, &format!("<rect x='{left}' y='{}' width='{SAMPLE}' height='8' fill='{colour}'/>", at - 4.0));
        let name = format!("{}: {}", short(&group.name, NAME_MOST), group.sizes);
        put(out, &text(left + SAMPLE + 8.0, at + 4.5, "start", 13, &name));
    }
}
