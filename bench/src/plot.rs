//! The plot. Above: what a whole check costs against the size of the document, a panel for each mix, both axes by powers. Below: what
//! the core's edits cost in whole checks.

use crate::report::{grouped, Report, Row, Section, Who, MOST_CHECKS, WHO};
use std::fmt::Write;

const WIDTH: f64 = 960.0;
const HEIGHT: f64 = 930.0;
const TOKENS: [usize; 5] = [500, 1000, 2000, 4000, 8192];

/// A panel's frame.
struct Panel {
    left: f64,
    top: f64,
    width: f64,
    height: f64,
    /// The lowest and the highest power of ten, in microseconds.
    powers: (f64, f64),
}

impl Panel {
    fn x(&self, tokens: f64) -> f64 {
        let (low, high) = ((TOKENS[0] as f64).ln(), (TOKENS[TOKENS.len() - 1] as f64).ln());
        self.left + self.width * (0.03 + 0.94 * (tokens.ln() - low) / (high - low))
    }

    fn y(&self, ns: f64) -> f64 {
        let (low, high) = self.powers;
        self.top + self.height * (high - (ns / 1000.0).log10()) / (high - low)
    }
}

fn colour(who: Who) -> &'static str {
    match who {
        Who::Core => "#0b5cad",
        Who::Plain => "#d1711a",
        Who::Field => "#8a8f98",
        Who::Libxml2 => "#2f8f4e",
        Who::Single | Who::Parent | Who::Moving => "#000000",
    }
}

/// The documents that are edited are left out above: their size is too near to the largest.
pub fn svg(report: &Report) -> String {
    let is_shown = |row: &&Row| row.section == Section::Check && row.tokens != report.edit_tokens;
    let checks: Vec<&Row> = report.rows.iter().filter(is_shown).collect();
    let mut mixes: Vec<&str> = Vec::new();
    for row in &checks {
        if !mixes.contains(&row.mix) {
            mixes.push(row.mix);
        }
    }
    let times = || checks.iter().flat_map(|row| row.times.iter().flatten().map(|time| time.median / 1000.0));
    let low = times().fold(f64::MAX, f64::min).log10().floor();
    let high = times().fold(f64::MIN, f64::max).log10() + 0.1;

    let mut svg = String::new();
    writeln!(
        svg,
        "<svg xmlns=\"http://www.w3.org/2000/svg\" width=\"{w}\" height=\"{h}\" viewBox=\"0 0 {w} {h}\" font-family=\"Helvetica, Arial, sans-serif\" font-size=\"13\" fill=\"#222\">",
        w = WIDTH,
        h = HEIGHT
    )
    .unwrap();
    writeln!(svg, "<rect width=\"{}\" height=\"{}\" fill=\"white\"/>", WIDTH, HEIGHT).unwrap();
    text(&mut svg, WIDTH / 2.0, 28.0, "middle", "font-size=\"17\" font-weight=\"bold\"", "Cost of a whole check");
    legend(&mut svg, &checks);
    for (k, mix) in mixes.iter().enumerate() {
        let panel = Panel {
            left: 84.0 + (k % 2) as f64 * 464.0,
            top: 104.0 + (k / 2) as f64 * 274.0,
            width: 372.0,
            height: 196.0,
            powers: (low, high),
        };
        frame(&mut svg, &panel, mix);
        for who in WHO.into_iter().rev() {
            let mut points: Vec<(usize, f64)> =
                checks.iter().filter(|row| row.mix == *mix).filter_map(|row| Some((row.tokens, row.median(who)?))).collect();
            points.sort_by_key(|&(tokens, _)| tokens);
            line(&mut svg, &panel, who, &points);
        }
    }
    edits(&mut svg, report, &mixes);
    svg.push_str("</svg>\n");
    svg
}

/// One dot for each edit near the front, full, and one for each near the end, hollow.
fn edits(svg: &mut String, report: &Report, mixes: &[&str]) {
    const TOP: f64 = 700.0;
    const TALL: f64 = 150.0;
    const LEFT: f64 = 84.0;
    const WIDE: f64 = 836.0;
    const MOST: f64 = 1.5;
    let y = |checks: f64| TOP + TALL * (1.0 - checks.min(MOST) / MOST);
    let title = format!("Cost of the core's edits at {} tokens", grouped(report.edit_tokens));
    text(svg, WIDTH / 2.0, TOP - 36.0, "middle", "font-size=\"17\" font-weight=\"bold\"", &title);
    let c = colour(Who::Core);
    writeln!(svg, "<circle cx=\"372\" cy=\"{y}\" r=\"4\" fill=\"{c}\"/><circle cx=\"502\" cy=\"{y}\" r=\"4\" fill=\"white\" stroke=\"{c}\" stroke-width=\"2\"/>", y = TOP - 18.0, c = c).unwrap();
    text(svg, 382.0, TOP - 13.5, "start", "", "near the front");
    text(svg, 512.0, TOP - 13.5, "start", "", "near the end");
    for tenths in [0, 5, 10] {
        let checks = f64::from(tenths) / 10.0;
        writeln!(svg, "<line x1=\"{}\" y1=\"{y:.1}\" x2=\"{}\" y2=\"{y:.1}\" stroke=\"#ddd\"/>", LEFT, LEFT + WIDE, y = y(checks)).unwrap();
        text(svg, LEFT - 8.0, y(checks) + 4.5, "end", "", &format!("{:.1}", checks));
    }
    writeln!(
        svg,
        "<line x1=\"{}\" y1=\"{y:.1}\" x2=\"{}\" y2=\"{y:.1}\" stroke=\"#b3261e\" stroke-dasharray=\"6 4\"/>",
        LEFT,
        LEFT + WIDE,
        y = y(MOST_CHECKS)
    )
    .unwrap();
    text(svg, LEFT + WIDE, y(MOST_CHECKS) - 5.0, "end", "fill=\"#b3261e\"", &format!("limit {}", MOST_CHECKS));
    let (x, middle) = (LEFT - 54.0, TOP + TALL / 2.0);
    text(svg, x, middle, "middle", &format!("fill=\"#555\" transform=\"rotate(-90 {:.1} {:.1})\"", x, middle), "whole checks");
    let step = WIDE / mixes.len() as f64;
    for (k, mix) in mixes.iter().enumerate() {
        let left = LEFT + step * k as f64;
        text(svg, left + step / 2.0, TOP + TALL + 46.0, "middle", "font-weight=\"bold\"", mix);
        for (n, name) in ["insert", "remove", "replace", "set", "drop"].into_iter().enumerate() {
            let x = left + step * (n as f64 + 0.5) / 5.0;
            text(svg, x, TOP + TALL + 20.0, "middle", "font-size=\"10\"", name);
            for row in report.rows.iter().filter(|row| row.section == Section::Edit && row.mix == *mix && row.what == name) {
                if let Some(checks) = report.in_checks(row, Who::Core) {
                    let (x, fill) = if row.spot == "front" { (x - 5.0, c) } else { (x + 5.0, "white") };
                    writeln!(
                        svg,
                        "<circle cx=\"{:.1}\" cy=\"{:.1}\" r=\"4\" fill=\"{}\" stroke=\"{}\" stroke-width=\"2\"/>",
                        x,
                        y(checks),
                        fill,
                        c
                    )
                    .unwrap();
                }
            }
        }
    }
}

fn text(svg: &mut String, x: f64, y: f64, anchor: &str, style: &str, words: &str) {
    writeln!(svg, "<text x=\"{:.1}\" y=\"{:.1}\" text-anchor=\"{}\" {}>{}</text>", x, y, anchor, style, words).unwrap();
}

fn legend(svg: &mut String, checks: &[&Row]) {
    let shown: Vec<Who> = WHO.into_iter().filter(|&who| checks.iter().any(|row| row.median(who).is_some())).collect();
    let step = 150.0;
    let left = (WIDTH - step * shown.len() as f64) / 2.0;
    for (k, &who) in shown.iter().enumerate() {
        let x = left + step * k as f64;
        writeln!(
            svg,
            "<line x1=\"{:.1}\" y1=\"50\" x2=\"{:.1}\" y2=\"50\" stroke=\"{c}\" stroke-width=\"2.5\"/><circle cx=\"{:.1}\" cy=\"50\" r=\"3.5\" fill=\"{c}\"/>",
            x,
            x + 28.0,
            x + 14.0,
            c = colour(who)
        )
        .unwrap();
        text(svg, x + 36.0, 54.5, "start", "", who.name());
    }
}

fn frame(svg: &mut String, panel: &Panel, mix: &str) {
    let (right, bottom) = (panel.left + panel.width, panel.top + panel.height);
    for power in panel.powers.0 as i32..=panel.powers.1 as i32 {
        let microseconds = 10f64.powi(power);
        let y = panel.y(1000.0 * microseconds);
        writeln!(svg, "<line x1=\"{:.1}\" y1=\"{y:.1}\" x2=\"{:.1}\" y2=\"{y:.1}\" stroke=\"#ddd\"/>", panel.left, right, y = y).unwrap();
        let label = if power < 0 { microseconds.to_string() } else { grouped(microseconds as usize) };
        text(svg, panel.left - 8.0, y + 4.5, "end", "", &label);
    }
    for tokens in TOKENS {
        let x = panel.x(tokens as f64);
        writeln!(svg, "<line x1=\"{x:.1}\" y1=\"{:.1}\" x2=\"{x:.1}\" y2=\"{:.1}\" stroke=\"#888\"/>", bottom, bottom + 5.0, x = x)
            .unwrap();
        text(svg, x, bottom + 19.0, "middle", "", &grouped(tokens));
    }
    writeln!(svg, "<path d=\"M{:.1} {:.1}V{:.1}H{:.1}\" fill=\"none\" stroke=\"#888\"/>", panel.left, panel.top, bottom, right).unwrap();
    text(svg, panel.left, panel.top - 10.0, "start", "font-weight=\"bold\"", mix);
    text(svg, panel.left + panel.width / 2.0, bottom + 36.0, "middle", "fill=\"#555\"", "tokens");
    let (x, y) = (panel.left - 54.0, panel.top + panel.height / 2.0);
    text(svg, x, y, "middle", &format!("fill=\"#555\" transform=\"rotate(-90 {:.1} {:.1})\"", x, y), "microseconds a check");
}

fn line(svg: &mut String, panel: &Panel, who: Who, points: &[(usize, f64)]) {
    let at: Vec<String> = points.iter().map(|&(tokens, ns)| format!("{:.1},{:.1}", panel.x(tokens as f64), panel.y(ns))).collect();
    if at.is_empty() {
        return;
    }
    writeln!(svg, "<polyline points=\"{}\" fill=\"none\" stroke=\"{}\" stroke-width=\"2\"/>", at.join(" "), colour(who)).unwrap();
    for &(tokens, ns) in points {
        writeln!(svg, "<circle cx=\"{:.1}\" cy=\"{:.1}\" r=\"3\" fill=\"{}\"/>", panel.x(tokens as f64), panel.y(ns), colour(who)).unwrap();
    }
}
