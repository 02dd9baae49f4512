//! Plots as SVG, written by hand.

use crate::marker::PER_REFERENCE;
use crate::table::Merged;
use std::fmt::Write;

const PROVED: &str = "#1b6ca8";
const TUNED: &str = "#4c9f70";
const REFERENCE: &str = "#d08c2f";
const FLOOR: &str = "#555555";

fn start(width: f64, height: f64, title: &str) -> String {
    let mut svg = format!(
        "<svg xmlns=\"http://www.w3.org/2000/svg\" viewBox=\"0 0 {width} {height}\" width=\"{width}\" height=\"{height}\" \
         font-family=\"sans-serif\" font-size=\"11\">\n<rect width=\"100%\" height=\"100%\" fill=\"white\"/>\n"
    );
    label(&mut svg, width / 2.0, 20.0, "middle", "14", title);
    svg
}

fn label(svg: &mut String, x: f64, y: f64, anchor: &str, size: &str, text: &str) {
    writeln!(svg, "<text x=\"{x:.1}\" y=\"{y:.1}\" text-anchor=\"{anchor}\" font-size=\"{size}\">{text}</text>")
        .expect("text");
}

fn bar(svg: &mut String, x: f64, y: f64, width: f64, height: f64, color: &str) {
    writeln!(svg, "<rect x=\"{x:.1}\" y=\"{y:.1}\" width=\"{width:.1}\" height=\"{height:.1}\" fill=\"{color}\"/>")
        .expect("text");
}

fn line(svg: &mut String, from: (f64, f64), to: (f64, f64), color: &str) {
    let ((x1, y1), (x2, y2)) = (from, to);
    writeln!(svg, "<line x1=\"{x1:.1}\" y1=\"{y1:.1}\" x2=\"{x2:.1}\" y2=\"{y2:.1}\" stroke=\"{color}\"/>")
        .expect("text");
}

fn legend(svg: &mut String, x: f64, y: f64, entries: &[(&str, &str)]) {
    for (i, (name, color)) in entries.iter().enumerate() {
        let x = x + 170.0 * i as f64;
        bar(svg, x, y - 9.0, 10.0, 10.0, color);
        label(svg, x + 15.0, y, "start", "11", name);
    }
}

/// The colours of the machines' bars, from the top.
const BARS: [&str; 3] = [PROVED, TUNED, REFERENCE];

/// Bars of ns per reference, three for each marking, with a line where depth-first marking stands.
/// The scale is logarithmic, from 1 ns.
pub fn marks(rows: &[Merged]) -> String {
    let (left, top, step, width) = (190.0, 55.0, 30.0, 620.0);
    let per_reference = |row: &Merged| PER_REFERENCE.map(|column| row.figures[column][0]);
    let highest = rows.iter().flat_map(per_reference).fold(10.0, f64::max);
    let across = |value: f64| width * value.max(1.0).log10() / highest.log10();
    let height = top + step * rows.len() as f64 + 30.0;
    let mut svg = start(left + width + 40.0, height, "Marker: ns per reference (logarithmic)");
    let names =
        [("proved library", PROVED), ("tuned machine", TUNED), ("Rust machine", REFERENCE), ("depth-first", FLOOR)];
    legend(&mut svg, left, 42.0, &names);
    for power in 0..=highest.log10() as i32 {
        let x = left + across(10f64.powi(power));
        line(&mut svg, (x, top), (x, height - 25.0), "#dddddd");
        label(&mut svg, x, height - 12.0, "middle", "11", &format!("{}", 10f64.powi(power)));
    }
    for (i, row) in rows.iter().enumerate() {
        let y = top + step * i as f64;
        let name = format!("{}, W {}, D, K {}", row.names[0], row.names[1], row.names[2]);
        label(&mut svg, left - 6.0, y + 14.0, "end", "10", &name);
        let [machines @ .., floor] = per_reference(row);
        for (place, (time, color)) in machines.into_iter().zip(BARS).enumerate() {
            bar(&mut svg, left, y + 3.0 + 8.0 * place as f64, across(time), 8.0, color);
        }
        let x = left + across(floor);
        line(&mut svg, (x, y + 1.0), (x, y + 29.0), FLOOR);
    }
    svg + "</svg>\n"
}

/// One line of the growth plot: its column has nanoseconds for each reference.
struct Curve {
    name: &'static str,
    color: &'static str,
    dashed: bool,
    column: usize,
}

const CURVES: [Curve; 6] = [
    Curve { name: "mark, proved", color: PROVED, dashed: false, column: 2 },
    Curve { name: "mark, tuned", color: TUNED, dashed: false, column: 3 },
    Curve { name: "mark, Rust", color: REFERENCE, dashed: false, column: 4 },
    Curve { name: "depth-first", color: FLOOR, dashed: false, column: 5 },
    Curve { name: "read, proved", color: PROVED, dashed: true, column: 0 },
    Curve { name: "read, Rust", color: REFERENCE, dashed: true, column: 1 },
];

/// Time over references, both logarithmic: a straight line of slope 1 is time in proportion.
pub fn growth(rows: &[Merged]) -> String {
    let (left, top, width, height) = (80.0, 40.0, 560.0, 440.0);
    let across = |references: f64| left + width * (references.log10() - 3.0) / 3.0;
    let up = |time: f64| top + height - height * (time.log10() - 3.0) / 5.0;
    let mut svg = start(left + width + 140.0, top + height + 50.0, "Time over references (both logarithmic)");
    for power in 3..=6 {
        let x = across(10f64.powi(power));
        line(&mut svg, (x, top), (x, top + height), "#dddddd");
        label(&mut svg, x, top + height + 18.0, "middle", "11", &format!("10^{power} references"));
    }
    for power in 3..=8 {
        let y = up(10f64.powi(power));
        line(&mut svg, (left, y), (left + width, y), "#dddddd");
        label(&mut svg, left - 8.0, y + 4.0, "end", "11", &format!("{} µs", 10f64.powi(power - 3)));
    }
    let mut names = Vec::new();
    for curve in &CURVES {
        let point = |row: &Merged| {
            let references: f64 = row.names[0].parse().expect("a number of references");
            (across(references), up(row.figures[curve.column][0] * references))
        };
        let points: Vec<(f64, f64)> = rows.iter().map(point).collect();
        draw(&mut svg, curve, &points);
        names.extend(points.last().map(|&(_, y)| (y + 4.0, curve.name)));
    }
    name_curves(&mut svg, left + width + 8.0, names);
    svg + "</svg>\n"
}

/// The curves' names beside their ends, one below the other where the ends are close.
fn name_curves(svg: &mut String, x: f64, mut names: Vec<(f64, &str)>) {
    names.sort_by(|one, other| one.0.total_cmp(&other.0));
    let mut free = 0.0;
    for (y, name) in names {
        let y = y.max(free);
        label(svg, x, y, "start", "11", name);
        free = y + 14.0;
    }
}

fn draw(svg: &mut String, curve: &Curve, points: &[(f64, f64)]) {
    let text: Vec<String> = points.iter().map(|(x, y)| format!("{x:.1},{y:.1}")).collect();
    let dashes = if curve.dashed { " stroke-dasharray=\"5 4\"" } else { "" };
    let (color, points_text) = (curve.color, text.join(" "));
    writeln!(svg, "<polyline points=\"{points_text}\" fill=\"none\" stroke=\"{color}\" stroke-width=\"2\"{dashes}/>")
        .expect("text");
}
