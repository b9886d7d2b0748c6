//! A plot of speeds over the length of the text, as an SVG file.

use std::fmt::Write;

const WIDTH: f64 = 720.0;
const HEIGHT: f64 = 420.0;
const LEFT: f64 = 60.0;
const RIGHT: f64 = 150.0;
const TOP: f64 = 40.0;
const BOTTOM: f64 = 50.0;

/// One colour for each program, also for readers who see few.
const COLOURS: [&str; 6] = [
    "#0072b2", "#999999", "#d55e00", "#009e73", "#cc79a7", "#e69f00",
];

/// The programs' speeds at each size: `speeds[size][program]`.
pub fn svg(title: &str, names: &[&str], sizes: &[usize], speeds: &[Vec<f64>]) -> String {
    let most = speeds.iter().flatten().fold(1.0_f64, |a, &b| a.max(b));
    let step = 10_f64.powf(most.log10().floor()) / 2.0;
    let top = (most / step).ceil() * step;
    let x = |i: usize| LEFT + (WIDTH - LEFT - RIGHT) * i as f64 / (sizes.len() - 1) as f64;
    let y = |speed: f64| HEIGHT - BOTTOM - (HEIGHT - TOP - BOTTOM) * speed / top;
    let mut svg = format!(
        "<svg xmlns=\"http://www.w3.org/2000/svg\" viewBox=\"0 0 {WIDTH} {HEIGHT}\" \
         font-family=\"sans-serif\" font-size=\"13\">\n\
         <rect width=\"{WIDTH}\" height=\"{HEIGHT}\" fill=\"white\"/>\n\
         <text x=\"{LEFT}\" y=\"22\" font-size=\"15\">{title}</text>\n"
    );
    for mark in 0..=(top / step).round() as usize {
        let speed = mark as f64 * step;
        let (from, to, at) = (LEFT, WIDTH - RIGHT, y(speed));
        let _ = writeln!(
            svg,
            "<line x1=\"{from}\" x2=\"{to}\" y1=\"{at:.1}\" y2=\"{at:.1}\" stroke=\"#dddddd\"/>\n\
             <text x=\"{:.1}\" y=\"{:.1}\" text-anchor=\"end\">{speed}</text>",
            from - 8.0,
            at + 4.0
        );
    }
    for (i, size) in sizes.iter().enumerate() {
        let _ = writeln!(
            svg,
            "<text x=\"{:.1}\" y=\"{:.1}\" text-anchor=\"middle\">{size} bytes</text>",
            x(i),
            HEIGHT - BOTTOM + 20.0
        );
    }
    for (program, name) in names.iter().enumerate() {
        let colour = COLOURS[program % COLOURS.len()];
        let points: Vec<String> = speeds
            .iter()
            .enumerate()
            .map(|(i, at)| format!("{:.1},{:.1}", x(i), y(at[program])))
            .collect();
        let width = if program == 0 { 3 } else { 2 };
        let key = TOP + 20.0 * program as f64 + 10.0;
        let _ = writeln!(
            svg,
            "<polyline points=\"{}\" fill=\"none\" stroke=\"{colour}\" stroke-width=\"{width}\"/>\n\
             <line x1=\"{1:.1}\" x2=\"{2:.1}\" y1=\"{key}\" y2=\"{key}\" stroke=\"{colour}\" stroke-width=\"{width}\"/>\n\
             <text x=\"{3:.1}\" y=\"{4}\">{name}</text>",
            points.join(" "),
            WIDTH - RIGHT + 15.0,
            WIDTH - RIGHT + 40.0,
            WIDTH - RIGHT + 46.0,
            key + 4.0
        );
    }
    svg.push_str("</svg>\n");
    svg
}
