//! The figures as a picture: an SVG file written by hand, with no library.

use crate::figures::Table;

const WIDTH: f64 = 960.0;
const HEIGHT: f64 = 480.0;
const BASE: f64 = 430.0;
const TALL: f64 = 320.0;
pub const COLOURS: [&str; 6] = ["#2b6cb0", "#718096", "#dd6b20", "#2f855a", "#b83280", "#5a67d8"];
const BLACK: &str = "#000";
/// A figure between two points that are nearer to each other would lie over the upper one.
const CLOSE: f64 = 22.0;

pub fn text(x: f64, y: f64, anchor: &str, words: &str) -> String {
    format!("<text x=\"{x:.1}\" y=\"{y:.1}\" text-anchor=\"{anchor}\">{words}</text>\n")
}

/// A figure on a white edge, so that lines behind it do not strike it out.
pub fn label(x: f64, y: f64, anchor: &str, colour: &str, words: &str) -> String {
    let place = format!("x=\"{x:.1}\" y=\"{y:.1}\" text-anchor=\"{anchor}\"");
    format!(
        "<text {place} stroke=\"#fff\" stroke-width=\"4\" stroke-linejoin=\"round\">{words}</text>\n\
         <text {place} fill=\"{colour}\">{words}</text>\n"
    )
}

pub fn square(x: f64, y: f64, (width, height): (f64, f64), colour: &str) -> String {
    format!("<rect x=\"{x:.1}\" y=\"{y:.1}\" width=\"{width:.1}\" height=\"{height:.1}\" fill=\"{colour}\"/>\n")
}

pub fn line(from: (f64, f64), to: (f64, f64), colour: &str) -> String {
    let ((a, b), (c, d)) = (from, to);
    format!("<line x1=\"{a:.1}\" y1=\"{b:.1}\" x2=\"{c:.1}\" y2=\"{d:.1}\" stroke=\"{colour}\" stroke-width=\"2\"/>\n")
}

/// A whole picture.
pub fn picture(width: f64, height: f64, inside: &str) -> String {
    format!(
        "<svg xmlns=\"http://www.w3.org/2000/svg\" width=\"{width}\" height=\"{height}\" viewBox=\"0 0 {width} {height}\" \
         font-family=\"sans-serif\" font-size=\"12\">\n<rect width=\"100%\" height=\"100%\" fill=\"#fff\"/>\n{inside}</svg>\n"
    )
}

/// Three to a column.
fn legend(x: f64, names: &[&str]) -> String {
    let item = |(number, name): (usize, &&str)| {
        let (x, y) = (x + 150.0 * (number / 3) as f64, 44.0 + 16.0 * (number % 3) as f64);
        square(x, y - 9.0, (10.0, 10.0), COLOURS[number % 6]) + &text(x + 16.0, y, "start", name)
    };
    names.iter().enumerate().map(item).collect()
}

fn greatest<'a>(numbers: impl IntoIterator<Item = &'a f64>) -> f64 {
    numbers.into_iter().fold(1.0, |most, number| number.max(most))
}

/// Three bars for each load: commands, check, BTreeMap.
fn bars(loads: &Table) -> Result<String, String> {
    let columns = [loads.column(3)?, loads.column(5)?, loads.column(6)?];
    let most = greatest(columns.iter().flatten());
    let names =
        ["xapool, without the check", "xapool, the check's share in a full batch", "BTreeMap"];
    let mut out = text(20.0, 22.0, "start", "ns a command, full batches") + &legend(20.0, &names);
    for (number, name) in loads.names().into_iter().enumerate() {
        let left = 30.0 + 150.0 * number as f64;
        for (at, column) in columns.iter().enumerate() {
            let (value, x) = (column[number], left + 40.0 * at as f64);
            let tall = TALL * (value / most).max(0.0);
            out += &square(x, BASE - tall, (34.0, tall), COLOURS[at]);
            out += &text(x + 17.0, BASE - tall - 4.0, "middle", &format!("{value:.1}"));
        }
        out += &text(left + 57.0, BASE + 18.0, "middle", name);
    }
    Ok(out + &line((20.0, BASE), (470.0, BASE), BLACK))
}

/// A load over pools of several sizes: nodes, and nanoseconds.
struct Series<'a> {
    name: &'a str,
    points: Vec<(f64, f64)>,
}

fn series(table: &Table) -> Result<Vec<Series<'_>>, String> {
    let columns = [table.column(1)?, table.column(2)?, table.column(3)?];
    let nodes = [table.nodes(1)?, table.nodes(2)?, table.nodes(3)?];
    let points = |row: usize| nodes.iter().zip(&columns).map(move |(n, values)| (*n, values[row]));
    let each = |(row, name)| Series { name, points: points(row).collect() };
    Ok(table.names().into_iter().enumerate().map(each).collect())
}

/// The place of so many nodes: as far apart as the logarithms are.
fn across(nodes: f64) -> f64 {
    560.0 + 340.0 * (nodes / 40.0).ln() / (16_384f64 / 40.0).ln()
}

/// The figures of one column: each over its point, or under it where another point is close above.
fn labels(mut points: Vec<(f64, f64, &str)>, x: f64) -> String {
    points.sort_by(|a, b| a.0.total_cmp(&b.0));
    let (mut out, mut above) = (String::new(), f64::NEG_INFINITY);
    for (y, value, colour) in points {
        let at = if y - above < CLOSE { y + 16.0 } else { y - 8.0 };
        above = y;
        out += &label(x, at, "middle", colour, &format!("{value:.1}"));
    }
    out
}

/// A line with its points for each load over the number of nodes.
fn lines(all: &[Series]) -> String {
    let most = greatest(all.iter().flat_map(|row| row.points.iter().map(|point| &point.1)));
    let names: Vec<&str> = all.iter().map(|row| row.name).collect();
    let mut out =
        text(520.0, 22.0, "start", "ns a command without the check, by the nodes N of the pool");
    out += &legend(520.0, &names);
    let y = |value: f64| BASE - TALL * (value / most).max(0.0);
    let place = |point: &(f64, f64)| (across(point.0), y(point.1));
    for (row, colour) in all.iter().zip(COLOURS) {
        for ends in row.points.windows(2) {
            out += &line(place(&ends[0]), place(&ends[1]), colour);
        }
        for (x, y) in row.points.iter().map(place) {
            out += &format!("<circle cx=\"{x:.1}\" cy=\"{y:.1}\" r=\"3.5\" fill=\"{colour}\"/>\n");
        }
    }
    for (nodes, name) in [(40.0, "N = 40"), (200.0, "200"), (1000.0, "1,000"), (16_384.0, "16,384")]
    {
        let here = |(row, colour): (&Series, &'static str)| {
            let point = row.points.iter().find(|point| point.0 == nodes)?;
            Some((y(point.1), point.1, colour))
        };
        out += &labels(all.iter().zip(COLOURS).filter_map(here).collect(), across(nodes));
        out += &text(across(nodes), BASE + 18.0, "middle", name);
    }
    let note = "rough at 16,384: the check, which is taken off, takes far longer";
    out + &text(520.0, BASE + 38.0, "start", note) + &line((520.0, BASE), (940.0, BASE), BLACK)
}

/// From the text of docs/BENCHMARKS.md.
pub fn svg(benchmarks: &str) -> Result<String, String> {
    let loads = Table::read(benchmarks, "load | commands | batches | ns a command")?;
    let same = Table::read(benchmarks, "the same commands")?;
    let few = Table::read(benchmarks, "where few nodes are free")?;
    let all: Vec<Series> = series(&same)?.into_iter().chain(series(&few)?).collect();
    Ok(picture(WIDTH, HEIGHT, &(bars(&loads)? + &lines(&all))))
}
