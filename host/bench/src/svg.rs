//! A picture of curves in panels, both axes logarithmic.

use std::fmt::Write;
use std::fs;
use std::io;
use std::path::Path;

pub struct Picture {
    pub title: &'static str,
    /// Of the upward axes.
    pub unit: &'static str,
    pub panels: Vec<Panel>,
}

pub struct Panel {
    /// Of the axis to the right.
    pub name: String,
    pub curves: Vec<Curve>,
}

pub struct Curve {
    pub name: &'static str,
    /// Both numbers above 0.
    pub points: Vec<(f64, f64)>,
}

const COLUMNS: usize = 2;
const WIDTH: f64 = 420.0;
const HEIGHT: f64 = 260.0;
const TOP: f64 = 60.0;
/// Around the field of a panel: left, right, above, below.
const MARGINS: [f64; 4] = [64.0, 24.0, 8.0, 44.0];
const COLOURS: [&str; 4] = ["#1f77b4", "#d62728", "#2ca02c", "#9467bd"];

impl Picture {
    /// Writes it to a file and says so.
    pub fn write(&self, path: &Path) -> io::Result<()> {
        if let Some(directory) = path.parent() {
            fs::create_dir_all(directory)?;
        }
        fs::write(path, self.svg())?;
        println!(" picture: {}", path.display());
        Ok(())
    }

    fn svg(&self) -> String {
        let rows = (self.panels.len() + COLUMNS - 1) / COLUMNS;
        let (width, height) = (WIDTH * COLUMNS as f64, TOP + HEIGHT * rows as f64);
        let mut svg = format!(
            "<svg xmlns=\"http://www.w3.org/2000/svg\" viewBox=\"0 0 {width} {height}\" \
             font-family=\"sans-serif\" font-size=\"12\">\n\
             <rect width=\"{width}\" height=\"{height}\" fill=\"white\"/>\n"
        );
        text(&mut svg, (16.0, 24.0), "start", 16, self.title);
        self.push_legend(&mut svg);
        let bounds = self.heights();
        for (place, panel) in self.panels.iter().enumerate() {
            let (column, row) = (place % COLUMNS, place / COLUMNS);
            let corner = (WIDTH * column as f64, TOP + HEIGHT * row as f64);
            Field::new(panel, corner, bounds).push(&mut svg, panel, self.unit);
        }
        svg.push_str("</svg>\n");
        svg
    }

    fn push_legend(&self, svg: &mut String) {
        let curves = self.panels.iter().flat_map(|panel| &panel.curves);
        let mut names: Vec<&str> = Vec::new();
        for curve in curves {
            if !names.contains(&curve.name) {
                names.push(curve.name);
            }
        }
        for (place, (name, colour)) in names.iter().zip(COLOURS).enumerate() {
            let left = 16.0 + 220.0 * place as f64;
            let right = left + 24.0;
            let _ = writeln!(
                svg,
                "<path d=\"M{left} 42H{right}\" stroke=\"{colour}\" stroke-width=\"2\"/>"
            );
            text(svg, (right + 6.0, 46.0), "start", 12, name);
        }
    }

    /// All panels have the same, so that they can be compared.
    fn heights(&self) -> (f64, f64) {
        let curves = self.panels.iter().flat_map(|panel| &panel.curves);
        decades(curves.flat_map(|curve| &curve.points).map(|point| point.1))
    }
}

/// Powers of ten around some numbers.
fn decades(numbers: impl Iterator<Item = f64>) -> (f64, f64) {
    let (low, high) = bounds(numbers);
    (low.log10().floor(), high.log10().ceil())
}

fn bounds(numbers: impl Iterator<Item = f64>) -> (f64, f64) {
    numbers.fold((f64::MAX, 0.0), |(low, high), number| {
        (number.min(low), number.max(high))
    })
}

/// Where the numbers of a panel lie in the picture.
struct Field {
    left: f64,
    right: f64,
    above: f64,
    below: f64,
    /// Logarithms at the edges.
    across: (f64, f64),
    up: (f64, f64),
}

impl Field {
    fn new(panel: &Panel, corner: (f64, f64), up: (f64, f64)) -> Self {
        let points = panel.curves.iter().flat_map(|curve| &curve.points);
        let (low, high) = bounds(points.map(|point| point.0));
        Self {
            left: corner.0 + MARGINS[0],
            right: corner.0 + WIDTH - MARGINS[1],
            above: corner.1 + MARGINS[2],
            below: corner.1 + HEIGHT - MARGINS[3],
            across: (low.log10(), high.log10()),
            up,
        }
    }

    fn x(&self, number: f64) -> f64 {
        let (low, high) = self.across;
        self.left + (self.right - self.left) * (number.log10() - low) / (high - low)
    }

    fn y(&self, number: f64) -> f64 {
        let (low, high) = self.up;
        self.below - (self.below - self.above) * (number.log10() - low) / (high - low)
    }

    fn push(&self, svg: &mut String, panel: &Panel, unit: &str) {
        self.push_axes(svg, panel, unit);
        for (curve, colour) in panel.curves.iter().zip(COLOURS) {
            let points = curve.points.iter();
            let points = points.map(|&(x, y)| format!("{:.1},{:.1}", self.x(x), self.y(y)));
            let points = points.collect::<Vec<_>>().join(" ");
            let _ = writeln!(
                svg,
                "<polyline points=\"{points}\" fill=\"none\" stroke=\"{colour}\" stroke-width=\"2\"/>"
            );
        }
    }

    fn push_axes(&self, svg: &mut String, panel: &Panel, unit: &str) {
        let Self {
            left,
            right,
            above,
            below,
            ..
        } = *self;
        for power in self.up.0 as i32..=self.up.1 as i32 {
            let number = 10f64.powi(power);
            let y = self.y(number);
            let _ = writeln!(svg, "<path d=\"M{left} {y:.1}H{right}\" stroke=\"#ddd\"/>");
            text(svg, (left - 6.0, y + 4.0), "end", 11, &number.to_string());
        }
        if let Some(curve) = panel.curves.first() {
            for &(number, _) in &curve.points {
                let x = self.x(number);
                text(svg, (x, below + 16.0), "middle", 11, &number.to_string());
            }
        }
        let _ = writeln!(
            svg,
            "<path d=\"M{left} {above}V{below}H{right}\" fill=\"none\" stroke=\"black\"/>"
        );
        let middle = (left + right) / 2.0;
        text(svg, (middle, below + 34.0), "middle", 12, &panel.name);
        text(svg, (left + 6.0, above + 10.0), "start", 11, unit);
    }
}

fn text(svg: &mut String, (x, y): (f64, f64), anchor: &str, size: u32, text: &str) {
    let _ = writeln!(
        svg,
        "<text x=\"{x:.1}\" y=\"{y:.1}\" text-anchor=\"{anchor}\" font-size=\"{size}\">{text}</text>"
    );
}
