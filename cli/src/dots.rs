//! A matrix as dots: a row for each check, a column for each bit.

use crate::matrix::Matrix;
use crate::svg::{open, put, step, text};

/// The widest field of dots, alone and as one of several in a row, and the largest room of a dot.
const WIDE: f64 = 440.0;
const NARROW: f64 = 204.0;
const CELL: f64 = 18.0;

/// The room for numbers before and above the field, and around it.
const LEFT: f64 = 30.0;
const TOP: f64 = 20.0;
const AROUND: f64 = 4.0;

/// The width of a dot as a part of its cell, and the least.
const DOT: f64 = 0.78;
const LEAST: f64 = 1.4;

/// Where the field is.
struct Field {
    rows: usize,
    columns: usize,
    cell: f64,
}

impl Field {
    fn new(matrix: &Matrix, wide: f64) -> Field {
        let (rows, columns) = (matrix.m + matrix.k, matrix.n + matrix.k);
        Field { rows, columns, cell: (wide / columns as f64).min(CELL) }
    }

    fn x(&self, column: usize) -> f64 {
        LEFT + self.cell * column as f64
    }

    fn y(&self, row: usize) -> f64 {
        TOP + self.cell * row as f64
    }

    fn open(&self, told: &str) -> String {
        open((self.x(self.columns) + AROUND, self.y(self.rows) + AROUND), told)
    }

    /// The numbers of bits above and of checks before the field.
    fn numbers(&self, out: &mut String) {
        let half = self.cell / 2.0;
        for column in (0..self.columns).step_by(step(self.cell, 26.0)) {
            put(out, &text(self.x(column) + half, TOP - 6.0, "middle", 11, &column.to_string()));
        }
        for row in (0..self.rows).step_by(step(self.cell, 14.0)) {
            put(out, &text(LEFT - 5.0, self.y(row) + half + 4.0, "end", 11, &row.to_string()));
        }
    }

    /// A rectangle around columns and rows from the first on.
    fn frame(&self, out: &mut String, columns: usize, rows: usize) {
        let (width, height) = (self.cell * columns as f64, self.cell * rows as f64);
        put(
            out,
            &format!("<rect class='frame' x='{LEFT}' y='{TOP}' width='{width:.1}' height='{height:.1}' fill='none'/>"),
        );
    }

    /// The ones for which this holds, each a line of no length with round ends.
    fn ones(&self, out: &mut String, matrix: &Matrix, class: &str, holds: impl Fn(usize, usize) -> bool) {
        let mut path = String::new();
        for (row, bits) in matrix.rows().iter().enumerate() {
            path.extend(bits.iter().filter(|&&bit| holds(row, bit)).map(|bit| format!("M{bit} {row}h0")));
        }
        let (x, y, cell, dot) = (LEFT + self.cell / 2.0, TOP + self.cell / 2.0, self.cell, DOT.max(LEAST / self.cell));
        if !path.is_empty() {
            let place = format!("translate({x:.2} {y:.2}) scale({cell:.3})");
            put(
                out,
                &format!("<path class='{class}' transform='{place}' stroke-width='{dot:.2}' fill='none' d='{path}'/>"),
            );
        }
    }
}

/// A matrix with its added bits and checks, if it has any, in another colour.
pub fn draw(matrix: &Matrix) -> String {
    let (field, n, m) = (Field::new(matrix, WIDE), matrix.n, matrix.m);
    let told = format!("{} checks by {} bits, {} ones", field.rows, field.columns, matrix.ones());
    let mut out = field.open(&told);
    field.numbers(&mut out);
    field.frame(&mut out, field.columns, field.rows);
    if matrix.k > 0 {
        field.frame(&mut out, n, m);
    }
    let is_given = |row: usize, bit: usize| row < m && bit < n;
    field.ones(&mut out, matrix, "one", is_given);
    field.ones(&mut out, matrix, "added", |row, bit| !is_given(row, bit));
    put(&mut out, "</svg>");
    out
}

/// A given matrix with the columns of some bits marked.
pub fn draw_marked(given: &Matrix, marked: &[usize]) -> String {
    let field = Field::new(given, NARROW);
    let list: Vec<String> = marked.iter().map(usize::to_string).collect();
    let mut out = field.open(&format!("the matrix with the columns of bits {} marked", list.join(" ")));
    field.numbers(&mut out);
    let height = field.cell * field.rows as f64;
    for &bit in marked {
        let (x, cell) = (field.x(bit), field.cell);
        put(&mut out, &format!("<rect class='column' x='{x:.1}' y='{TOP}' width='{cell:.1}' height='{height:.1}'/>"));
    }
    field.frame(&mut out, field.columns, field.rows);
    field.ones(&mut out, given, "pale", |_, bit| !marked.contains(&bit));
    field.ones(&mut out, given, "marked", |_, bit| marked.contains(&bit));
    put(&mut out, "</svg>");
    out
}
