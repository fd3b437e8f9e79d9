//! The plots of docs/PERFORMANCE.md, as SVG.

const WIDTH: f64 = 760.0;
const LEFT: f64 = 150.0;
const RIGHT: f64 = 60.0;

/// One colour for the engine, one for the Rust, in every plot.
const ENGINE: &str = "#1b6ca8";
const RUST: &str = "#b5651d";

fn svg(height: f64, body: &str) -> String {
    format!(
        "<svg xmlns=\"http://www.w3.org/2000/svg\" viewBox=\"0 0 {WIDTH} {height}\" font-family=\"sans-serif\" font-size=\"12\">\n\
         <rect width=\"{WIDTH}\" height=\"{height}\" fill=\"white\"/>\n{body}</svg>\n"
    )
}

fn text(x: f64, y: f64, anchor: &str, what: &str) -> String {
    format!("<text x=\"{x:.1}\" y=\"{y:.1}\" text-anchor=\"{anchor}\">{what}</text>\n")
}

fn line(x1: f64, y1: f64, x2: f64, y2: f64, colour: &str) -> String {
    format!("<line x1=\"{x1:.1}\" y1=\"{y1:.1}\" x2=\"{x2:.1}\" y2=\"{y2:.1}\" stroke=\"{colour}\"/>\n")
}

/// A value's place on a logarithmic axis from low to high.
fn place(x: f64, low: f64, high: f64, from: f64, to: f64) -> f64 {
    from + (to - from) * (x.ln() - low.ln()) / (high.ln() - low.ln())
}

/// A bar for each script, from 1 to engine/Rust on a logarithmic axis: to the left the engine is the faster one.
pub fn ratios(rows: &[(String, f64)]) -> String {
    const STEP: f64 = 22.0;
    let (low, high) = (0.25, 4.0);
    let at = |x: f64| place(x.clamp(low, high), low, high, LEFT, WIDTH - RIGHT);
    let bottom = 40.0 + STEP * rows.len() as f64;
    let mut body = text(LEFT, 18.0, "start", "time, engine/Rust: to the left of 1 the engine is the faster one");
    for tick in [0.25, 0.5, 1.0, 2.0, 4.0] {
        body += &line(at(tick), 30.0, at(tick), bottom, if tick == 1.0 { "black" } else { "#ddd" });
        body += &text(at(tick), bottom + 16.0, "middle", &tick.to_string());
    }
    for (i, (name, ratio)) in rows.iter().enumerate() {
        let y = 36.0 + STEP * i as f64;
        let (from, to) = (at(1.0).min(at(*ratio)), at(1.0).max(at(*ratio)));
        let colour = if *ratio <= 1.0 { ENGINE } else { RUST };
        body += &text(LEFT - 8.0, y + 12.0, "end", name);
        body += &format!("<rect x=\"{from:.1}\" y=\"{y:.1}\" width=\"{:.1}\" height=\"15\" fill=\"{colour}\"/>\n", to - from);
        body += &text(WIDTH - 8.0, y + 12.0, "end", &format!("{ratio:.2}"));
    }
    svg(bottom + 28.0, &body)
}

/// What a propagation costs as V grows, for both, on logarithmic axes: (V, engine, Rust) in nanoseconds.
pub fn growth(rows: &[(u32, f64, f64)]) -> String {
    let (top, bottom) = (40.0, 300.0);
    let vars = |v: f64| place(v, rows[0].0 as f64, rows[rows.len() - 1].0 as f64, LEFT, WIDTH - RIGHT);
    let values = rows.iter().flat_map(|r| [r.1, r.2]);
    let (least, most) = values.fold((f64::MAX, f64::MIN), |a, x| (a.0.min(x), a.1.max(x)));
    let (low, high) = (2f64.powf(least.log2().floor()), 2f64.powf(most.log2().ceil()));
    let cost = |x: f64| place(x, low, high, bottom, top);
    let mut body = text(LEFT, 18.0, "start", "nanoseconds for a propagation, by the number of variables");
    let mut tick = low;
    while tick <= high {
        body += &line(LEFT, cost(tick), WIDTH - RIGHT, cost(tick), "#ddd");
        body += &text(LEFT - 8.0, cost(tick) + 4.0, "end", &tick.to_string());
        tick *= 2.0;
    }
    for r in rows {
        body += &text(vars(r.0 as f64), bottom + 18.0, "middle", &r.0.to_string());
    }
    let sides: [(&str, &str, fn(&(u32, f64, f64)) -> f64); 2] = [("engine", ENGINE, |r| r.1), ("Rust", RUST, |r| r.2)];
    for (name, colour, of) in sides {
        let points: Vec<String> = rows.iter().map(|r| format!("{:.1},{:.1}", vars(r.0 as f64), cost(of(r)))).collect();
        body += &format!("<polyline points=\"{}\" fill=\"none\" stroke=\"{colour}\" stroke-width=\"2\"/>\n", points.join(" "));
        let last = &rows[rows.len() - 1];
        body += &text(vars(last.0 as f64) + 6.0, cost(of(last)) + 4.0, "start", name);
    }
    svg(bottom + 30.0, &body)
}
