//! The library beside the engines as a picture: how many times an engine's time each load takes.

use crate::engines::LIMIT;
use crate::figures::Table;
use crate::plot::{label, line, picture, square, text};

const WIDTH: f64 = 900.0;
const TOP: f64 = 84.0;
/// A load with its two bars.
const HIGH: f64 = 34.0;
const LEFT: f64 = 240.0;
const WIDE: f64 = 600.0;
const COLOURS: [&str; 2] = ["#2b6cb0", "#dd6b20"];
const NAMES: [&str; 2] = ["by the engine in safe Rust", "by the engine with raw pointers"];

/// The bar of one engine, and its figure apart: that is drawn over the lines.
fn bar(ratio: f64, at: usize, y: f64, scale: f64) -> (String, String) {
    let (y, wide) = (y + 14.0 * at as f64, scale * ratio.max(0.0));
    let figure = label(LEFT + wide + 5.0, y + 10.0, "start", "#000", &format!("{ratio:.2}"));
    (square(LEFT, y, (wide, 12.0), COLOURS[at]), figure)
}

/// From the text of docs/BENCHMARKS.md.
pub fn svg(benchmarks: &str) -> Result<String, String> {
    let table = Table::read(benchmarks, "load | commands | batches | library without the check")?;
    let ratios = [table.column(6)?, table.column(7)?];
    let scale = WIDE / ratios.iter().flatten().fold(LIMIT, |most, ratio| most.max(*ratio));
    let height = TOP + HIGH * ratios[0].len() as f64 + 10.0;
    let title = "the library's time for a batch without the check, divided by an engine's";
    let (mut out, mut figures) = (text(20.0, 22.0, "start", title), String::new());
    for (at, name) in NAMES.iter().enumerate() {
        let x = 20.0 + 220.0 * at as f64;
        out += &(square(x, 32.0, (12.0, 12.0), COLOURS[at]) + &text(x + 18.0, 42.0, "start", name));
    }
    for (number, name) in table.names().into_iter().enumerate() {
        let y = TOP + HIGH * number as f64;
        out += &text(LEFT - 10.0, y + 17.0, "end", name);
        for (at, column) in ratios.iter().enumerate() {
            let (bar, figure) = bar(column[number], at, y, scale);
            (out, figures) = (out + &bar, figures + &figure);
        }
    }
    for (times, name) in [(1.0, "as long"), (LIMIT, "twice as long")] {
        let x = LEFT + scale * times;
        out += &line((x, TOP - 8.0), (x, height - 10.0), "#718096");
        out += &text(x, TOP - 14.0, "middle", name);
    }
    Ok(picture(WIDTH, height, &(out + &figures)))
}
