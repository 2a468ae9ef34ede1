//! How the cost grows with the capacity, the rows, the columns and the
//! archetypes: a table, and a plot.

use crate::cases::{freed, ids_alone, live, one_archetype, store_declaration, store_start};
use crate::measure::{case, times, Pair};
use oracle::{bits, place, IdTables};
use std::fmt::Write;

/// A line of the plot: nanoseconds a call on both sides, for each size.
struct Line {
    name: &'static str,
    ours: Vec<f64>,
    theirs: Vec<f64>,
}

struct Panel {
    title: &'static str,
    sizes: Vec<usize>,
    lines: Vec<Line>,
}

type Made = fn(usize) -> Box<dyn Pair>;

fn panel(
    title: &'static str,
    sizes: &[usize],
    made: &[(&'static str, Made)],
    rounds: usize,
) -> Panel {
    let line = |(name, made): &(&'static str, Made)| {
        let both: Vec<[f64; 2]> = sizes
            .iter()
            .map(|size| times(&mut *made(*size), rounds).map(|time| time.best))
            .collect();
        Line {
            name,
            ours: both.iter().map(|b| b[0]).collect(),
            theirs: both.iter().map(|b| b[1]).collect(),
        }
    };
    Panel { title, sizes: sizes.to_vec(), lines: made.iter().map(line).collect() }
}

fn boxed(pair: impl Pair + 'static) -> Box<dyn Pair> {
    Box::new(pair)
}

const BY_CAPACITY: [(&str, Made); 5] = [
    ("alloc", |n| {
        boxed(case(
            "",
            ids_alone(IdTables::empty(n)),
            n,
            |o, i| o.alloc(place(1, i as u32)),
            |t, i| t.store.ids.alloc(place(1, i as u32)),
        ))
    }),
    ("free", |n| {
        boxed(case(
            "",
            ids_alone(live(n, n)),
            n,
            |o, i| o.free(bits(i as u32, 1)),
            |t, i| t.store.ids.free(bits(i as u32, 1)),
        ))
    }),
    ("get", |n| {
        boxed(case(
            "",
            ids_alone(live(n, n)),
            n,
            |o, i| o.get(bits(i as u32, 1)),
            |t, i| t.store.ids.get(bits(i as u32, 1)),
        ))
    }),
    ("contains, reserved", |n| {
        boxed(case(
            "",
            ids_alone(freed(n, n, n)),
            n,
            |o, i| o.contains(bits(i as u32, 2)),
            |t, i| t.store.ids.contains(bits(i as u32, 2)),
        ))
    }),
    ("store: spawn", |n| spawn(4, 3, n)),
];

const BY_ROWS: [(&str, Made); 3] = [
    ("remove row, 4×8", |n| {
        boxed(case(
            "",
            one_archetype(4, 8, n as u32, n),
            n,
            |o, _| o.remove_row(1, 0),
            |t, _| t.store.columns.remove(1, 0),
        ))
    }),
    ("store: despawn", |n| despawn(4, 3, n)),
    ("store: read", |n| read(4, 3, n)),
];

const BY_COLUMNS: [(&str, Made); 3] = [
    ("store: spawn", |n| spawn(4, n, 256)),
    ("store: despawn", |n| despawn(4, n, 256)),
    ("store: read", |n| read(4, n, 256)),
];

const BY_ARCHETYPES: [(&str, Made); 3] = [
    ("store: spawn", |n| spawn(n, 3, 256)),
    ("store: despawn", |n| despawn(n, 3, 256)),
    ("store: read", |n| read(n, 3, 256)),
];

fn spawn(archetypes: usize, columns: usize, n: usize) -> Box<dyn Pair> {
    let start = store_start(store_declaration(archetypes, columns, n as u32), n, 1, 0);
    let row = vec![7u8; 8 * columns];
    let row_too = row.clone();
    boxed(case(
        "",
        start,
        n,
        move |o, _| o.spawn(1, &row),
        move |t, _| t.store.spawn(1, &row_too, &t.kinds),
    ))
}

fn despawn(archetypes: usize, columns: usize, n: usize) -> Box<dyn Pair> {
    let start = store_start(store_declaration(archetypes, columns, n as u32), n, 1, n);
    boxed(case(
        "",
        start,
        n,
        |o, i| o.despawn(bits(i as u32, 1)),
        |t, i| t.store.despawn(bits(i as u32, 1)),
    ))
}

fn read(archetypes: usize, columns: usize, n: usize) -> Box<dyn Pair> {
    let start = store_start(store_declaration(archetypes, columns, n as u32), n, 1, n);
    let last = columns - 1;
    boxed(case(
        "",
        start,
        n,
        |o, i| o.read(bits(i as u32, 1), 101),
        move |t, i| crate::theirs::first(t.store.read(bits(i as u32, 1), t.kinds[last].0, 8)),
    ))
}

fn print(panel: &Panel) {
    println!("\n### By {}: nanoseconds a call, ours / the original\n", panel.title);
    let sizes: Vec<String> = panel.sizes.iter().map(ToString::to_string).collect();
    println!("| call | {} |\n|---|{}", sizes.join(" | "), "---:|".repeat(sizes.len()));
    for line in &panel.lines {
        let both = line.ours.iter().zip(&line.theirs);
        let cells: Vec<String> = both.map(|(o, t)| format!("{o:.1} / {t:.1}")).collect();
        println!("| {} | {} |", line.name, cells.join(" | "));
    }
}

/// Measures, prints the table and writes the plot.
pub fn table(rounds: usize, file: &str) -> Result<(), String> {
    let panels = [
        panel("capacity", &[16, 64, 256, 1024, 4096], &BY_CAPACITY, rounds),
        panel("rows in use", &[16, 64, 256, 1024, 4096], &BY_ROWS, rounds),
        panel("columns of an archetype", &[1, 2, 4, 8, 16], &BY_COLUMNS, rounds),
        panel("archetypes of 3 columns", &[1, 2, 4, 8, 14], &BY_ARCHETYPES, rounds),
    ];
    panels.iter().for_each(print);
    std::fs::write(file, plot(&panels)).map_err(|error| format!("{file}: {error}"))?;
    println!("\nThe plot is in {file}.");
    Ok(())
}

// ---- the plot: a panel a size, both axes by powers of two

const WIDTH: f64 = 440.0;
const HEIGHT: f64 = 320.0;
const COLOURS: [&str; 5] = ["#0b6e99", "#c2410c", "#15803d", "#7e22ce", "#a16207"];

fn plot(panels: &[Panel]) -> String {
    let mut svg = String::new();
    let (w, h) = (WIDTH * 2.0, HEIGHT * panels.len().div_ceil(2) as f64 + 30.0);
    let _ = writeln!(
        svg,
        "<svg xmlns=\"http://www.w3.org/2000/svg\" viewBox=\"0 0 {w} {h}\" width=\"{w}\" height=\"{h}\" font-family=\"sans-serif\" font-size=\"11\">\n<rect width=\"{w}\" height=\"{h}\" fill=\"white\"/>"
    );
    let _ = writeln!(
        svg,
        "<text x=\"12\" y=\"18\" font-size=\"13\">Nanoseconds a call, best of the rounds: ours as full lines, the original as dashed ones</text>"
    );
    for (i, panel) in panels.iter().enumerate() {
        let (x, y) = ((i % 2) as f64 * WIDTH, (i / 2) as f64 * HEIGHT + 26.0);
        draw(&mut svg, panel, x, y);
    }
    svg.push_str("</svg>\n");
    svg
}

/// Where a panel's axes are, and which powers of two the upright one goes from and to.
struct Axes {
    left: f64,
    bottom: f64,
    wide: f64,
    tall: f64,
    steps: f64,
    low: f64,
    high: f64,
}

impl Axes {
    fn new(panel: &Panel, left: f64, top: f64) -> Axes {
        let both = |line: &Line| [line.ours.clone(), line.theirs.clone()].concat();
        let all: Vec<f64> = panel.lines.iter().flat_map(both).collect();
        Axes {
            left: left + 46.0,
            bottom: top + HEIGHT - 44.0,
            wide: WIDTH - 190.0,
            tall: HEIGHT - 76.0,
            steps: (panel.sizes.len() - 1).max(1) as f64,
            low: all.iter().copied().fold(f64::MAX, f64::min).max(0.1).log2().floor(),
            high: all.iter().copied().fold(0.1, f64::max).log2().ceil(),
        }
    }

    fn x(&self, at: usize) -> f64 {
        self.left + self.wide * at as f64 / self.steps
    }

    fn y(&self, ns: f64) -> f64 {
        let part = ns.max(0.1).log2() - self.low;
        self.bottom - self.tall * part / (self.high - self.low).max(1.0)
    }
}

fn draw(svg: &mut String, panel: &Panel, left: f64, top: f64) {
    let axes = Axes::new(panel, left, top);
    let _ = writeln!(
        svg,
        "<text x=\"{:.0}\" y=\"{:.0}\" text-anchor=\"middle\">{}</text>",
        axes.left + axes.wide / 2.0,
        axes.bottom + 34.0,
        panel.title
    );
    draw_powers(svg, &axes);
    draw_sizes(svg, &axes, &panel.sizes);
    for (i, line) in panel.lines.iter().enumerate() {
        let colour = COLOURS[i % COLOURS.len()];
        draw_values(svg, &axes, &line.ours, colour, "");
        draw_values(svg, &axes, &line.theirs, colour, " stroke-dasharray=\"4 3\"");
        let (x, y) = (axes.left + axes.wide + 10.0, top + 30.0 + 16.0 * i as f64);
        let _ =
            writeln!(svg, "<text x=\"{x:.0}\" y=\"{y:.0}\" fill=\"{colour}\">{}</text>", line.name);
    }
}

/// A level line, and how many nanoseconds it stands for, at each power of two.
fn draw_powers(svg: &mut String, axes: &Axes) {
    let Axes { left, wide, .. } = axes;
    for power in axes.low as i32..=axes.high as i32 {
        let ns = 2f64.powi(power);
        let at = axes.y(ns);
        let _ = writeln!(
            svg,
            "<path d=\"M{left:.1} {at:.1}h{wide:.1}\" stroke=\"#e5e7eb\"/><text x=\"{:.0}\" y=\"{:.0}\" text-anchor=\"end\">{ns}</text>",
            left - 5.0,
            at + 4.0
        );
    }
}

/// The sizes below the level axis.
fn draw_sizes(svg: &mut String, axes: &Axes, sizes: &[usize]) {
    for (at, size) in sizes.iter().enumerate() {
        let _ = writeln!(
            svg,
            "<text x=\"{:.0}\" y=\"{:.0}\" text-anchor=\"middle\">{size}</text>",
            axes.x(at),
            axes.bottom + 16.0
        );
    }
}

/// The line of one side.
fn draw_values(svg: &mut String, axes: &Axes, values: &[f64], colour: &str, dash: &str) {
    let point = |(at, ns): (usize, &f64)| format!("{:.1},{:.1}", axes.x(at), axes.y(*ns));
    let points: Vec<String> = values.iter().enumerate().map(point).collect();
    let _ = writeln!(
        svg,
        "<polyline points=\"{}\" fill=\"none\" stroke=\"{colour}\" stroke-width=\"1.6\"{dash}/>",
        points.join(" ")
    );
}
