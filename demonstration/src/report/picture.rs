//! The picture of a run: dirty bytes, held bytes and the maximum of both hosts, as SVG.

use crate::moment::Part;
use crate::referee::course::{Course, Sample};
use crate::wire::message::Figures;
use std::fmt::{self, Write};
use std::fs;
use std::io;
use std::path::Path;

const WIDTH: f64 = 900.0;
const LEFT: f64 = 64.0;
const RIGHT: f64 = 884.0;
/// The first panel's top, a panel's height, and the space below it.
const TOP: f64 = 84.0;
const PANEL: f64 = 130.0;
const GAP: f64 = 34.0;
/// A curve has no more points than this.
const MOST_POINTS: usize = 1_640;

/// A panel: its title, and the figure that it shows.
type Panel = (&'static str, fn(&Figures) -> u64);

const PANELS: [Panel; 3] = [
    ("dirty bytes (host 1 wide, host 2 upon it)", |figures| figures.dirty),
    ("held bytes", |figures| figures.held),
    ("maximum", |figures| figures.maximum),
];

const STYLE: &str = "\
text { font: 12px sans-serif; fill: #333 } .paper { fill: #fff } .axis { stroke: #999 } .grid { stroke: #999; opacity: .3 }
.host1 { stroke: #2f7fd6; fill: none } .host2 { stroke: #e08a00; fill: none } .wide { stroke-width: 5; opacity: .45 }
.thin { stroke-width: 1.4 } .lead1 { fill: #2f7fd6 } .lead2 { fill: #e08a00 }
.move { stroke: #888; stroke-dasharray: 3 3 } .lead { stroke: #d62f2f } .standby { stroke: #d62f2f; stroke-dasharray: 2 3 }
@media (prefers-color-scheme: dark) { text { fill: #ccc } .paper { fill: #15181c } }
";

pub fn write(course: &Course, title: &str, path: &Path) -> io::Result<()> {
    fs::write(path, draw(course, title).map_err(io::Error::other)?)
}

fn top(panel: usize) -> f64 {
    TOP + panel as f64 * (PANEL + GAP)
}

fn draw(course: &Course, title: &str) -> Result<String, fmt::Error> {
    let mut out = String::new();
    let height = top(PANELS.len()) + 24.0;
    writeln!(
        out,
        "<svg xmlns='http://www.w3.org/2000/svg' viewBox='0 0 {WIDTH} {height}' width='{WIDTH}' height='{height}'>"
    )?;
    writeln!(out, "<title>{title}</title>\n<style>\n{STYLE}</style>")?;
    writeln!(out, "<rect class='paper' width='{WIDTH}' height='{height}' rx='6'/>")?;
    legend(&mut out, title)?;
    let steps = course.samples.last().map_or(1, |sample| sample.step.max(1));
    let x = |step: u64| LEFT + (RIGHT - LEFT) * step as f64 / steps as f64;
    marks(&mut out, course, &x)?;
    for (place, panel) in PANELS.iter().enumerate() {
        draw_panel(&mut out, course, place, panel, &x)?;
    }
    leads(&mut out, course, &x)?;
    writeln!(out, "</svg>")?;
    Ok(out)
}

fn legend(out: &mut String, title: &str) -> fmt::Result {
    writeln!(out, "<text x='{LEFT}' y='24' style='font-size:14px'>{title}</text>")?;
    let items = [
        ("host1 thin", "host 1"),
        ("host2 thin", "host 2"),
        ("move", "move"),
        ("lead", "lead killed"),
        ("standby", "standby killed"),
    ];
    for (n, (class, text)) in items.into_iter().enumerate() {
        let x = LEFT + 120.0 * n as f64;
        writeln!(out, "<line class='{class}' x1='{x}' x2='{}' y1='44' y2='44'/>", x + 24.0)?;
        writeln!(out, "<text x='{}' y='48'>{text}</text>", x + 30.0)?;
    }
    Ok(())
}

/// Moves and kills, through all panels.
fn marks(out: &mut String, course: &Course, x: &impl Fn(u64) -> f64) -> fmt::Result {
    let moves = course.moves.iter().map(|moved| (moved.step, "move"));
    let kills = course.losses.iter().map(|loss| (loss.step, if loss.part == Part::Lead { "lead" } else { "standby" }));
    let (from, to) = (top(0) - 8.0, top(PANELS.len()) - GAP);
    for (step, class) in moves.chain(kills) {
        writeln!(out, "<line class='{class}' x1='{0:.1}' x2='{0:.1}' y1='{from}' y2='{to}'/>", x(step))?;
    }
    Ok(())
}

fn draw_panel(
    out: &mut String,
    course: &Course,
    place: usize,
    (title, figure): &Panel,
    x: &impl Fn(u64) -> f64,
) -> fmt::Result {
    let figures = course.samples.iter().flat_map(|sample| &sample.figures);
    let most = figures.map(figure).max().unwrap_or(0).next_multiple_of(2_048).max(2_048);
    let bottom = top(place) + PANEL;
    let y = |bytes: u64| bottom - PANEL * bytes as f64 / most as f64;
    for bytes in [0, most / 2, most] {
        let class = if bytes == 0 { "axis" } else { "grid" };
        writeln!(out, "<line class='{class}' x1='{LEFT}' x2='{RIGHT}' y1='{0:.1}' y2='{0:.1}'/>", y(bytes))?;
        writeln!(out, "<text x='{}' y='{:.1}' text-anchor='end'>{bytes}</text>", LEFT - 6.0, y(bytes) + 4.0)?;
    }
    writeln!(out, "<text x='{LEFT}' y='{}'>{title}</text>", top(place) - 12.0)?;
    // Where the curves are one, the second is drawn upon the first.
    let classes = if place == 0 { ["host1 wide", "host2 thin"] } else { ["host1 thin", "host2 thin"] };
    for (host, class) in classes.into_iter().enumerate() {
        curve(out, class, course, &|sample| (x(sample.step), y(figure(&sample.figures[host]))))?;
    }
    Ok(())
}

/// A curve that goes level from step to step.
fn curve(out: &mut String, class: &str, course: &Course, at: &impl Fn(&Sample) -> (f64, f64)) -> fmt::Result {
    let stride = course.samples.len().div_ceil(MOST_POINTS).max(1);
    write!(out, "<path class='{class}' d='")?;
    let mut height = None;
    for sample in course.samples.iter().step_by(stride) {
        let (x, y) = at(sample);
        match height {
            None => write!(out, "M{x:.1} {y:.1}")?,
            Some(before) if before != y => write!(out, "H{x:.1}V{y:.1}")?,
            Some(_) => {}
        }
        height = Some(y);
    }
    writeln!(out, "H{RIGHT}'/>")
}

/// Who leads, as a band below the panels.
fn leads(out: &mut String, course: &Course, x: &impl Fn(u64) -> f64) -> fmt::Result {
    let y = top(PANELS.len()) - GAP + 14.0;
    writeln!(out, "<text x='{}' y='{}' text-anchor='end'>lead</text>", LEFT - 6.0, y + 9.0)?;
    for led in course.samples.chunk_by(|one, next| one.lead == next.lead) {
        let (from, to) = (x(led[0].step), x(led[led.len() - 1].step + 1).min(RIGHT));
        writeln!(
            out,
            "<rect class='lead{}' x='{from:.1}' width='{:.1}' y='{y}' height='10'/>",
            led[0].lead + 1,
            to - from
        )?;
    }
    let steps = course.samples.len();
    writeln!(out, "<text x='{RIGHT}' y='{}' text-anchor='end'>{steps} steps</text>", y + 28.0)
}
