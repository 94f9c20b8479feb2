//! A plot of time against size on logarithmic axes, as an SVG.

const WIDTH: f64 = 640.0;
const HEIGHT: f64 = 420.0;
const MARGIN: f64 = 60.0;

/// Decades from the one at or below the least value to the one at or above the greatest.
fn decades(values: impl Iterator<Item = f64> + Clone) -> (i32, i32) {
    let least = values.clone().fold(f64::MAX, f64::min).log10().floor();
    let greatest = values.fold(f64::MIN, f64::max).log10().ceil();
    (least as i32, greatest as i32)
}

/// Each point: bytes, our milliseconds, the Rust's.
pub fn svg(points: &[(f64, f64, f64)]) -> String {
    let (left, right) = decades(points.iter().map(|point| point.0));
    let (bottom, top) = decades(points.iter().flat_map(|point| [point.1, point.2]));
    let x = |bytes: f64| {
        MARGIN + (bytes.log10() - left as f64) / (right - left) as f64 * (WIDTH - 2.0 * MARGIN)
    };
    let y = |time: f64| {
        HEIGHT - MARGIN - (time.log10() - bottom as f64) / (top - bottom) as f64 * (HEIGHT - 2.0 * MARGIN)
    };
    let mut out = format!(
        "<svg xmlns=\"http://www.w3.org/2000/svg\" viewBox=\"0 0 {WIDTH} {HEIGHT}\" font-family=\"sans-serif\" font-size=\"12\">\n\
         <rect width=\"{WIDTH}\" height=\"{HEIGHT}\" fill=\"white\"/>\n"
    );
    for decade in left..=right {
        let at = x(10f64.powi(decade));
        out += &format!(
            "<line x1=\"{at:.1}\" y1=\"{MARGIN}\" x2=\"{at:.1}\" y2=\"{:.1}\" stroke=\"#ddd\"/>\n\
             <text x=\"{at:.1}\" y=\"{:.1}\" text-anchor=\"middle\">10^{decade} bytes</text>\n",
            HEIGHT - MARGIN,
            HEIGHT - MARGIN + 18.0
        );
    }
    for decade in bottom..=top {
        let at = y(10f64.powi(decade));
        out += &format!(
            "<line x1=\"{MARGIN}\" y1=\"{at:.1}\" x2=\"{:.1}\" y2=\"{at:.1}\" stroke=\"#ddd\"/>\n\
             <text x=\"{:.1}\" y=\"{:.1}\" text-anchor=\"end\">{} ms</text>\n",
            WIDTH - MARGIN,
            MARGIN - 6.0,
            at + 4.0,
            10f64.powi(decade)
        );
    }
    for (name, colour, time) in
        [("proved reader", "#06c", (|p| p.1) as fn(&(f64, f64, f64)) -> f64), ("Rust", "#c30", |p| p.2)]
    {
        let line: Vec<String> =
            points.iter().map(|point| format!("{:.1},{:.1}", x(point.0), y(time(point)))).collect();
        let last = points.last().expect("a plot has points");
        out += &format!(
            "<polyline points=\"{}\" fill=\"none\" stroke=\"{colour}\" stroke-width=\"2\"/>\n\
             <text x=\"{:.1}\" y=\"{:.1}\" fill=\"{colour}\" text-anchor=\"end\">{name}</text>\n",
            line.join(" "),
            x(last.0) - 10.0,
            y(time(last)) - 8.0
        );
    }
    out + "</svg>\n"
}
