//! The picture beside the page: times against sizes, both by powers of ten, as SVG.

use super::hostile::Grown;
use super::releases::{Input, Packed, CAT, GNU, LLVM, OURS, TAR};
use std::fmt::Write;
use std::time::Duration;

const WIDTH: f64 = 1_160.0;
const PANEL: f64 = 440.0;
/// Where the axes cross in a panel, and how far they go.
const LEFT: f64 = 80.0;
const TOP: f64 = 50.0;
const LONG: f64 = 520.0;
const HIGH: f64 = 330.0;
/// Where the names of series stand.
const NAMES: f64 = LEFT + LONG + 24.0;
const LINE: f64 = 17.0;

const COLOURS: [&str; 8] = ["#1f5fa8", "#c8501e", "#2b8a3e", "#8e3b9e", "#a07800", "#c2255c", "#0b7285", "#5c3d2e"];
const GREY: &str = "#b8b8b8";

/// Bytes and time, named, in the order of the bytes.
struct Series {
    name: String,
    points: Vec<(f64, f64)>,
    /// Those that are not in the legend are thin and grey.
    is_named: bool,
}

struct Panel {
    title: &'static str,
    series: Vec<Series>,
}

fn milliseconds(took: Duration) -> f64 {
    took.as_secs_f64() * 1e3
}

fn series(name: &str, points: impl Iterator<Item = (usize, Duration)>) -> Series {
    let mut points: Vec<(f64, f64)> = points.map(|(bytes, took)| (bytes as f64, milliseconds(took))).collect();
    points.sort_by(|a, b| a.0.total_cmp(&b.0));
    Series { name: name.to_string(), points, is_named: true }
}

fn calls(releases: &[Packed]) -> Panel {
    let of = |one: &Packed| one.measured.bundle;
    let thorin = releases.iter().filter_map(|one| one.measured.thorin.map(|steps| (of(one), steps.packing)));
    Panel {
        title: "One call over each release: milliseconds against the bundle's bytes",
        series: vec![
            series("ours, junk lent", releases.iter().map(|one| (of(one), one.measured.ours))),
            series("ours, zeros lent", releases.iter().map(|one| (of(one), one.measured.zeros))),
            series("thorin: add and finish", thorin),
        ],
    }
}

fn processes(inputs: &[Input]) -> Panel {
    let of = |program: &str| {
        let points = inputs.iter().filter_map(|input| Some((input.bytes as usize, input.of(program)?.time)));
        series(program, points.collect::<Vec<_>>().into_iter())
    };
    Panel {
        title: "Whole processes: milliseconds of the processor against the files' bytes",
        series: [OURS, GNU, LLVM, TAR, CAT].map(of).into(),
    }
}

/// Hostile kinds that grow by more than this at a doubling, or take more than a second somewhere, are named.
const STEEP: f64 = 3.5;
const SECOND: f64 = 1e3;

fn hostile(kinds: &[Grown]) -> Panel {
    let of = |kind: &Grown| {
        let one = series(kind.name, kind.measured.iter().map(|one| (one.bundle, one.ours)));
        let is_long = one.points.iter().any(|(_, took)| *took > SECOND);
        let is_named = is_long || kind.growth().is_some_and(|growth| growth > STEEP);
        Series { is_named, ..one }
    };
    let mut all: Vec<Series> = kinds.iter().map(of).collect();
    // What is named is drawn over what isn't.
    all.sort_by_key(|series| series.is_named);
    Panel { title: "Hostile kinds: milliseconds of one call against the bundle's bytes", series: all }
}

/// The powers of ten around some numbers.
fn range(numbers: impl Iterator<Item = f64>) -> (f64, f64) {
    let (least, most) = numbers.fold((f64::MAX, 0.0_f64), |(a, b), n| (a.min(n), b.max(n)));
    if most == 0.0 {
        return (0.0, 1.0);
    }
    let (low, high) = (least.log10().floor(), most.log10().ceil());
    (low, if high > low { high } else { low + 1.0 })
}

struct Axes {
    top: f64,
    bytes: (f64, f64),
    times: (f64, f64),
}

impl Axes {
    fn across(&self, bytes: f64) -> f64 {
        LEFT + (bytes.log10() - self.bytes.0) / (self.bytes.1 - self.bytes.0) * LONG
    }

    fn down(&self, took: f64) -> f64 {
        self.top + TOP + HIGH - (took.log10() - self.times.0) / (self.times.1 - self.times.0) * HIGH
    }

    /// A line with a number at each power of ten.
    fn drawn(&self, title: &str) -> String {
        let mut out = format!("<text x=\"{LEFT}\" y=\"{}\" font-weight=\"bold\">{title}</text>\n", self.top + 28.0);
        let grid = |out: &mut String, (x1, y1, x2, y2): (f64, f64, f64, f64)| {
            let _ = writeln!(out, "<path d=\"M{x1:.1} {y1:.1}L{x2:.1} {y2:.1}\" stroke=\"#e2e2e2\"/>");
        };
        for power in self.bytes.0 as i32..=self.bytes.1 as i32 {
            let x = self.across(10_f64.powi(power));
            grid(&mut out, (x, self.top + TOP, x, self.top + TOP + HIGH));
            let y = self.top + TOP + HIGH + 18.0;
            let _ = writeln!(out, "<text x=\"{x:.1}\" y=\"{y:.1}\" text-anchor=\"middle\">{}</text>", bytes(power));
        }
        for power in self.times.0 as i32..=self.times.1 as i32 {
            let y = self.down(10_f64.powi(power));
            grid(&mut out, (LEFT, y, LEFT + LONG, y));
            let (x, y, number) = (LEFT - 8.0, y + 4.0, 10_f64.powi(power));
            let _ = writeln!(out, "<text x=\"{x:.1}\" y=\"{y:.1}\" text-anchor=\"end\">{number}</text>");
        }
        out
    }
}

fn bytes(power: i32) -> String {
    match power {
        ..3 => 10_i64.pow(power.max(0) as u32).to_string(),
        3..6 => format!("{} kB", 10_i64.pow(power as u32 - 3)),
        _ => format!("{} MB", 10_i64.pow(power as u32 - 6)),
    }
}

fn drawn(panel: &Panel, top: f64) -> String {
    let points = || panel.series.iter().flat_map(|series| &series.points);
    let axes = Axes { top, bytes: range(points().map(|p| p.0)), times: range(points().map(|p| p.1)) };
    let mut out = axes.drawn(panel.title);
    let mut named = 0;
    for series in panel.series.iter().filter(|series| !series.points.is_empty()) {
        let colour = if series.is_named { COLOURS[named % COLOURS.len()] } else { GREY };
        let place = |(bytes, took): &(f64, f64)| format!("{:.1} {:.1}", axes.across(*bytes), axes.down(*took));
        let path = series.points.iter().map(place).collect::<Vec<_>>().join("L");
        let dashes = if named / COLOURS.len() % 2 == 1 { " stroke-dasharray=\"5 3\"" } else { "" };
        let _ = writeln!(out, "<path d=\"M{path}\" fill=\"none\" stroke=\"{colour}\"{dashes}/>");
        for (bytes, took) in &series.points {
            let (x, y) = (axes.across(*bytes), axes.down(*took));
            let _ = writeln!(out, "<circle cx=\"{x:.1}\" cy=\"{y:.1}\" r=\"2.5\" fill=\"{colour}\"/>");
        }
        if series.is_named {
            let y = top + TOP + 10.0 + named as f64 * LINE;
            let _ = writeln!(out, "<text x=\"{NAMES}\" y=\"{y:.1}\" fill=\"{colour}\">{}</text>", series.name);
            named += 1;
        }
    }
    out
}

/// The whole picture.
pub fn picture(releases: &[Packed], inputs: &[Input], kinds: &[Grown]) -> String {
    let panels = [calls(releases), processes(inputs), hostile(kinds)];
    let high = PANEL * panels.len() as f64;
    let mut out = format!(
        "<svg xmlns=\"http://www.w3.org/2000/svg\" width=\"{WIDTH}\" height=\"{high}\" font-family=\"sans-serif\" font-size=\"11\">\n"
    );
    out += "<rect width=\"100%\" height=\"100%\" fill=\"white\"/>\n";
    panels.iter().enumerate().for_each(|(i, panel)| out += &drawn(panel, PANEL * i as f64));
    out + "</svg>\n"
}

#[cfg(test)]
mod tests {
    use super::*;

    #[test]
    fn a_point_stands_between_its_powers_of_ten() {
        let one = Series { name: "one".to_string(), points: vec![(1e3, 1.0), (1e5, 100.0)], is_named: true };
        let text = drawn(&Panel { title: "t", series: vec![one] }, 0.0);
        assert!(text.contains("d=\"M80.0 380.0L600.0 50.0\""), "{text}");
        assert!(text.contains(">1 kB<") && text.contains(">100 kB<") && text.contains(">10<"), "{text}");
    }
}
