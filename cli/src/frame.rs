//! Where the parts of a picture of curves are on its paper.

/// The measures of a picture.
pub struct Paper {
    pub width: f64,
    pub left: f64,
    pub right: f64,
    /// Where the first panel and the row with the names of the ways are, and how high a panel is.
    pub top: f64,
    pub names: f64,
    pub depth: f64,
    /// Where the name of the channel's limit is, and that of the shares.
    pub limit: (f64, f64),
    pub what: f64,
    /// A picture on a page has its title there, and identifiers of its own.
    pub title: bool,
    pub front: &'static str,
}

/// A file of its own.
pub const FILE: Paper = Paper {
    width: 800.0,
    left: 84.0,
    right: 776.0,
    top: 108.0,
    names: 80.0,
    depth: 370.0,
    limit: (472.0, 80.0),
    what: 24.0,
    title: true,
    front: "",
};

/// A part of a page, narrow enough for a small screen.
pub const fn on_page(front: &'static str) -> Paper {
    Paper {
        width: 480.0,
        left: 62.0,
        right: 470.0,
        top: 60.0,
        names: 18.0,
        depth: 300.0,
        limit: (62.0, 42.0),
        what: 14.0,
        title: false,
        front,
    }
}

/// The height of a line of the legend, and the room below a panel.
pub const LEGEND: f64 = 20.0;
pub const BELOW: f64 = 62.0;
/// Between two panels.
const BETWEEN: f64 = 18.0;

/// Where things of a panel are on the paper.
pub struct Frame<'a> {
    pub paper: &'a Paper,
    pub top: f64,
    pub decades: i32,
    low: f64,
    high: f64,
}

impl Frame<'_> {
    /// A panel by its number, from 0, below so many lines of a legend; its axis goes from `low` to `high`.
    pub fn new(paper: &Paper, (low, high): (f64, f64), lines: usize, panel: usize, decades: i32) -> Frame<'_> {
        let top = paper.top + LEGEND * lines as f64 + (paper.depth + BELOW + BETWEEN) * panel as f64;
        Frame { paper, top, decades, low, high }
    }

    pub fn bottom(&self) -> f64 {
        self.top + self.paper.depth
    }

    pub fn middle(&self) -> f64 {
        (self.paper.left + self.paper.right) / 2.0
    }

    pub fn x(&self, at: f64) -> f64 {
        self.paper.left + (at - self.low) / (self.high - self.low) * (self.paper.right - self.paper.left)
    }

    pub fn y(&self, share: f64) -> f64 {
        let depth = -share.log10() / f64::from(self.decades);
        self.top + depth.clamp(0.0, 1.0) * self.paper.depth
    }

    /// Whether a share has a place on the axis.
    pub fn has(&self, share: f64) -> bool {
        share >= 10f64.powi(-self.decades)
    }
}
