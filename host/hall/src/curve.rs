//! The decay curve as a picture: levels by time, as SVG.

use std::fmt::Write;

use crate::decay::{self, reason, Decay};
use crate::geometry::SAMPLES_PER_MILLISECOND;
use crate::trace::Trace;

const WIDTH: f64 = 840.0;
const HEIGHT: f64 = 524.0;
const MARGIN: f64 = 16.0;
/// The field of the curve.
const LEFT: f64 = 56.0;
const RIGHT: f64 = 740.0;
const TOP: f64 = 96.0;
const BOTTOM: f64 = 416.0;
/// Tenths of a decibel at the bottom of the field; no level is below 301.
const LOWEST: u16 = 320;
const MOST_TICKS: u64 = 10;

const CURVE: &str = "#33638d";
const EARLY_DECAY: &str = "#b5543c";
const T20: &str = "#4c8055";
const GREY: &str = "#666";

/// The whole picture, a file of its own. Of a slot the curve has a step, as wide as the
/// slot lasts; a row in which nothing was recorded has no curve.
pub fn decay_curve(trace: &Trace) -> String {
    let title = format!(
        "Decay curve: {} slots of {} ms",
        trace.row.len(),
        trace.milliseconds(1)
    );
    let field = Field::new(trace);
    let mut svg = head(&title);
    push_grid(&mut svg);
    match Decay::of(trace) {
        Ok(decay) => {
            push_legend(&mut svg, trace, &decay);
            push_crossed_levels(&mut svg);
            field.push_curve(&mut svg, trace, &decay);
            field.push_crossing(&mut svg, trace, &decay);
        }
        Err(refusal) => {
            // Between two lines.
            let place = ((LEFT + RIGHT) / 2.0, height(125) + 5.0);
            push_text(&mut svg, place, "middle", 14, GREY, &reason(refusal));
        }
    }
    field.push_axes(&mut svg);
    push_notes(&mut svg, trace);
    svg.push_str("</svg>\n");
    svg
}

fn head(title: &str) -> String {
    let mut svg = format!(
        "<svg xmlns=\"http://www.w3.org/2000/svg\" version=\"1.1\" viewBox=\"0 0 {WIDTH} {HEIGHT}\" \
         font-family=\"sans-serif\" font-size=\"12\">\n\
         <title>{title}</title>\n\
         <rect width=\"{WIDTH}\" height=\"{HEIGHT}\" fill=\"white\"/>\n"
    );
    push_text(&mut svg, (MARGIN, 28.0), "start", 16, "black", title);
    svg
}

/// A line each 5 decibels.
fn push_grid(svg: &mut String) {
    for tenths in (0..LOWEST).step_by(50) {
        let (y, decibels) = (height(tenths), tenths / 10);
        let sign = if decibels == 0 { "" } else { "−" };
        push_path(svg, "#ddd", 1.0, &format!("M{LEFT} {y:.1}H{RIGHT}"));
        let label = format!("{sign}{decibels}");
        push_text(svg, (LEFT - 8.0, y + 4.0), "end", 12, "black", &label);
    }
}

fn push_legend(svg: &mut String, trace: &Trace, decay: &Decay) {
    for (left, colour, name, slots) in [
        (MARGIN, EARLY_DECAY, "early decay", decay.early_decay),
        (MARGIN + 320.0, T20, "T20", decay.t20),
    ] {
        let words = format!("{name}: {}", trace.length(slots));
        push_path(svg, colour, 1.5, &format!("M{left} 56H{}", left + 24.0));
        push_text(svg, (left + 32.0, 60.0), "start", 13, "black", &words);
    }
}

/// The levels whose crossings are counted, with a name beside the field.
fn push_crossed_levels(svg: &mut String) {
    for (tenths, colour, name) in [
        (50, T20, "T20, from"),
        (100, EARLY_DECAY, "early decay"),
        (250, T20, "T20, to"),
    ] {
        let y = height(tenths);
        push_path(svg, colour, 1.0, &format!("M{LEFT} {y:.1}H{RIGHT}"));
        push_text(svg, (RIGHT + 8.0, y + 4.0), "start", 12, colour, name);
    }
}

fn push_notes(svg: &mut String, trace: &Trace) {
    let mut notes = vec![
        format!("{}; dashed where the levels end", decay::LEVEL),
        format!("early decay: {}; T20: {}", decay::EARLY_DECAY, decay::T20),
        decay::CROSSINGS.to_string(),
    ];
    notes.extend(decay::cut(trace));
    for (y, note) in [472.0, 486.0, 500.0, 514.0].into_iter().zip(notes) {
        push_text(svg, (MARGIN, y), "start", 11, GREY, &note);
    }
}

/// Where times lie in the picture.
struct Field {
    /// Of the whole row.
    samples: u64,
}

impl Field {
    fn new(trace: &Trace) -> Self {
        let samples = trace.row.len() as u64 * trace.slot_length;
        Self {
            samples: samples.max(1),
        }
    }

    fn x(&self, samples: u64) -> f64 {
        LEFT + (RIGHT - LEFT) * samples as f64 / self.samples as f64
    }

    fn push_axes(&self, svg: &mut String) {
        let whole = self.samples / SAMPLES_PER_MILLISECOND;
        for milliseconds in (0..=whole).step_by(tick(whole) as usize) {
            let x = self.x(milliseconds * SAMPLES_PER_MILLISECOND);
            push_path(svg, "black", 1.0, &format!("M{x:.1} {BOTTOM}v5"));
            let label = milliseconds.to_string();
            push_text(svg, (x, BOTTOM + 20.0), "middle", 12, "black", &label);
        }
        let axes = format!("M{LEFT} {TOP}V{BOTTOM}H{RIGHT}");
        push_path(svg, "black", 1.0, &axes);
        let below = ((LEFT + RIGHT) / 2.0, BOTTOM + 38.0);
        push_text(svg, below, "middle", 12, "black", "time, ms");
        push_text(svg, (MARGIN, TOP - 14.0), "start", 12, "black", "level, dB");
    }

    /// A step for each slot with a level; none comes behind one without. There the curve
    /// falls out of the field.
    fn push_curve(&self, svg: &mut String, trace: &Trace, decay: &Decay) {
        let (mut x, mut y) = (LEFT, TOP);
        let mut steps = format!("M{x} {y}");
        for (slot, level) in (1..).zip(decay.levels.iter().map_while(|&level| level)) {
            (x, y) = (self.x(slot * trace.slot_length), height(level));
            let _ = write!(steps, "V{y:.1}H{x:.1}");
        }
        let _ = writeln!(
            svg,
            "<path id=\"curve\" d=\"{steps}\" fill=\"none\" stroke=\"{CURVE}\" stroke-width=\"2\"/>\n\
             <path d=\"M{x:.1} {y:.1}V{BOTTOM}\" stroke=\"{CURVE}\" stroke-width=\"2\" stroke-dasharray=\"3 4\"/>"
        );
    }

    /// Where the tenth is reached that early decay counts to.
    fn push_crossing(&self, svg: &mut String, trace: &Trace, decay: &Decay) {
        let slot = decay.first_at_a_tenth();
        let (x, y) = (self.x(slot * trace.slot_length), height(100));
        let _ = writeln!(
            svg,
            "<circle id=\"crossing\" cx=\"{x:.1}\" cy=\"{y:.1}\" r=\"4\" fill=\"{EARLY_DECAY}\"/>"
        );
        let words = format!("slot {slot}, {} ms", trace.milliseconds(slot));
        // The curve leaves free what is later and higher, and what is earlier and lower.
        if x < (LEFT + RIGHT) / 2.0 {
            push_text(svg, (x + 8.0, y - 8.0), "start", 12, EARLY_DECAY, &words);
        } else {
            push_text(svg, (x - 8.0, y + 18.0), "end", 12, EARLY_DECAY, &words);
        }
    }
}

/// Where a level lies, in tenths of a decibel below the start.
fn height(tenths: u16) -> f64 {
    TOP + (BOTTOM - TOP) * f64::from(tenths) / f64::from(LOWEST)
}

/// The least of 1, 2, 5, 10, 20, 50 and so on by which a length has few ticks.
fn tick(length: u64) -> u64 {
    let mut power = 1;
    loop {
        let ticks = [1, 2, 5].map(|digit| digit * power);
        match ticks.iter().find(|&tick| length / tick <= MOST_TICKS) {
            Some(&tick) => return tick,
            None => power *= 10,
        }
    }
}

fn push_path(svg: &mut String, colour: &str, width: f64, path: &str) {
    let _ = writeln!(
        svg,
        "<path d=\"{path}\" fill=\"none\" stroke=\"{colour}\" stroke-width=\"{width}\"/>"
    );
}

fn push_text(
    svg: &mut String,
    (x, y): (f64, f64),
    anchor: &str,
    size: u32,
    colour: &str,
    text: &str,
) {
    let _ = writeln!(
        svg,
        "<text x=\"{x:.1}\" y=\"{y:.1}\" text-anchor=\"{anchor}\" font-size=\"{size}\" fill=\"{colour}\">{text}</text>"
    );
}
