//! Time against records as an SVG of six small charts, both axes logarithmic.

use crate::rows::{Curve, Times};
use std::fmt::Write;

const WIDTH: f64 = 310.0;
const HEIGHT: f64 = 210.0;
const MARGIN: (f64, f64, f64, f64) = (58.0, 26.0, 16.0, 34.0); // left, top, right, bottom

/// What the axes show: records, a little less than 16 to 2,048, and microseconds.
const X: (f64, f64) = (12.0, 2048.0);
const Y: (f64, f64) = (0.3, 10_000.0);

const LINES: [(&str, &str, fn(&Times) -> Option<f64>); 3] = [
    ("library", "#0b6e4f", |times| Some(times.library)),
    ("plain Rust", "#b5541c", |times| Some(times.plain)),
    ("source module", "#5b5f97", |times| times.module),
];

pub fn svg(curves: &[Curve]) -> String {
    let (columns, rows) = (curves.len() / 2, 2);
    let (width, height) = (columns as f64 * WIDTH, rows as f64 * HEIGHT + 26.0);
    let mut text = format!(
        "<svg xmlns=\"http://www.w3.org/2000/svg\" viewBox=\"0 0 {width} {height}\" font-family=\"sans-serif\" font-size=\"11\">\n\
         <rect width=\"{width}\" height=\"{height}\" fill=\"white\"/>\n"
    );
    for (nth, curve) in curves.iter().enumerate() {
        let (x, y) = ((nth / rows) as f64 * WIDTH, (nth % rows) as f64 * HEIGHT);
        chart(&mut text, curve, x, y);
    }
    for (nth, (name, colour, _)) in LINES.iter().enumerate() {
        let (x, y) = (MARGIN.0 + nth as f64 * 130.0, height - 10.0);
        add(
            &mut text,
            format!(
                "<line x1=\"{x}\" y1=\"{0}\" x2=\"{1}\" y2=\"{0}\" stroke=\"{colour}\" stroke-width=\"2\"/>",
                y - 4.0,
                x + 20.0
            ),
        );
        add(&mut text, format!("<text x=\"{}\" y=\"{y}\">{name}</text>", x + 26.0));
    }
    text.push_str("</svg>\n");
    text
}

fn chart(text: &mut String, curve: &Curve, left: f64, top: f64) {
    let inner = (WIDTH - MARGIN.0 - MARGIN.2, HEIGHT - MARGIN.1 - MARGIN.3);
    let across = |records: f64| left + MARGIN.0 + inner.0 * (records / X.0).ln() / (X.1 / X.0).ln();
    let down = |micros: f64| top + MARGIN.1 + inner.1 * (1.0 - (micros.clamp(Y.0, Y.1) / Y.0).ln() / (Y.1 / Y.0).ln());
    add(
        text,
        format!("<text x=\"{}\" y=\"{}\" font-weight=\"bold\">{}</text>", left + MARGIN.0, top + 16.0, curve.name),
    );
    for micros in [1.0, 10.0, 100.0, 1000.0, 10_000.0] {
        let y = down(micros);
        add(
            text,
            format!(
                "<line x1=\"{}\" y1=\"{y:.1}\" x2=\"{}\" y2=\"{y:.1}\" stroke=\"#ddd\"/>",
                across(X.0),
                across(X.1)
            ),
        );
        add(
            text,
            format!("<text x=\"{}\" y=\"{:.1}\" text-anchor=\"end\">{micros} µs</text>", across(X.0) - 4.0, y + 4.0),
        );
    }
    for records in [16.0, 64.0, 256.0, 1024.0] {
        add(
            text,
            format!(
                "<text x=\"{:.1}\" y=\"{:.1}\" text-anchor=\"middle\">{records}</text>",
                across(records),
                down(Y.0) + 15.0
            ),
        );
    }
    for (_, colour, time) in LINES {
        let points: Vec<String> = curve
            .points
            .iter()
            .filter_map(|(records, times)| time(times).map(|micros| (*records as f64, micros)))
            .map(|(records, micros)| format!("{:.1},{:.1}", across(records), down(micros)))
            .collect();
        add(
            text,
            format!("<polyline points=\"{}\" fill=\"none\" stroke=\"{colour}\" stroke-width=\"2\"/>", points.join(" ")),
        );
    }
}

fn add(text: &mut String, line: String) {
    writeln!(text, "{line}").expect("a string takes what is written");
}
