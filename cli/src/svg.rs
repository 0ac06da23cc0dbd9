//! What pictures and pages are put together from.

pub const FONTS: &str = "Helvetica, Arial, DejaVu Sans, sans-serif";
pub const INK: &str = "#222222";

/// Puts an element on a line of its own.
pub fn put(out: &mut String, element: &str) {
    out.push_str(element);
    out.push('\n');
}

pub fn text(x: f64, y: f64, anchor: &str, size: u32, text: &str) -> String {
    let text = escaped(text);
    format!("<text x='{x:.1}' y='{y:.1}' text-anchor='{anchor}' font-size='{size}'>{text}</text>")
}

/// A text as XML takes it between tags.
pub fn escaped(text: &str) -> String {
    let mut escaped = String::new();
    for c in text.chars() {
        match c {
            '&' => escaped.push_str("&amp;"),
            '<' => escaped.push_str("&lt;"),
            '>' => escaped.push_str("&gt;"),
            c if c.is_control() || ('\u{FFFE}'..='\u{FFFF}').contains(&c) => escaped.push('\u{FFFD}'),
            c => escaped.push(c),
        }
    }
    escaped
}

/// The start of a picture on a page; `told` is for a reader who does not see it.
pub fn open((width, height): (f64, f64), told: &str) -> String {
    format!(
        "<svg xmlns='http://www.w3.org/2000/svg' width='{width:.0}' height='{height:.0}' \
         viewBox='0 0 {width:.1} {height:.1}' role='img' aria-label='{told}'>\n"
    )
}

/// The distance between the numbers of an axis, of the steps 1, 2 and 5 and their tens: the least with this room for
/// each, where one step of the axis takes `unit`.
pub fn step(unit: f64, room: f64) -> usize {
    let steps = [1, 2, 5, 10, 20, 50];
    steps.into_iter().find(|&step| step as f64 * unit >= room).unwrap_or(100)
}
