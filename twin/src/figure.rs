// The figure of docs/margins.svg: for each published cable, how many mA its
// rating lies under the exact limit current, between 0 (the line) and the 2 mA
// that are proved as the most.

use crate::margins::distance_under_line;
use crate::published::{published, Published};
use crate::rating::rate;

const TITLE: &str = "How far each published rating lies under the line";
const WIDTH: u32 = 820;
const ROW: u32 = 17;
/// Where the first row and the axis of 0 mA stand, and how long 1 mA is.
const TOP: u32 = 96;
const LEFT: u32 = 290;
const MILLIAMPERE: u32 = 220;
/// The axis is marked at every quarter of a mA up to 2.
const QUARTERS: u32 = 8;

fn text(x: f64, y: f64, anchor: &str, words: &str) -> String {
    format!("<text x=\"{x:.0}\" y=\"{y:.0}\" text-anchor=\"{anchor}\">{words}</text>\n")
}

fn vertical(x: u32, bottom: u32, style: &str) -> String {
    format!("<path d=\"M{x} {}V{bottom}\" {style}/>\n", TOP - 8)
}

/// One cable: its name, its rating, a bar from 0 to the distance with a dot at
/// its end, and the distance in digits.
fn row(number: u32, cable: &Published) -> String {
    let rating = rate(&cable.case).rating;
    let distance = distance_under_line(&cable.case, rating).expect("a rating under the line");
    let y = f64::from(TOP + ROW * number) + 8.0;
    let baseline = y + 4.0;
    let dot = f64::from(LEFT) + f64::from(MILLIAMPERE) * distance;
    let amperes = format!("{}.{:03}", rating / 1000, rating % 1000);
    text(12.0, baseline, "start", &cable.name)
        + &text(f64::from(LEFT) - 20.0, baseline, "end", &amperes)
        + &format!("<path d=\"M{LEFT} {y}H{dot:.1}\" stroke=\"black\" stroke-width=\"2\"/>\n")
        + &format!("<circle cx=\"{dot:.1}\" cy=\"{y}\" r=\"3.5\"/>\n")
        + &text(f64::from(WIDTH) - 12.0, baseline, "end", &format!("{distance:.3}"))
}

fn heading() -> String {
    let above = f64::from(TOP) - 18.0;
    let explained = "The exact limit current less the rating, the least over both ends of pi, \
                     ln 2 and each logarithm";
    "<g font-size=\"17\" font-weight=\"bold\">\n".to_string()
        + &text(12.0, 26.0, "start", TITLE)
        + "</g>\n"
        + &text(12.0, 48.0, "start", explained)
        + &text(12.0, above, "start", "cable")
        + &text(f64::from(LEFT) - 20.0, above, "end", "rating, A")
        + &text(f64::from(LEFT) - 2.0, above, "start", "the line")
        + &text(f64::from(LEFT + 2 * MILLIAMPERE), above, "middle", "2 mA bound")
        + &text(f64::from(WIDTH) - 12.0, above, "end", "mA")
}

/// The line at 0, the bound at 2 mA, and a thin rule at each quarter between.
fn axis(bottom: u32) -> String {
    let mut drawn = String::new();
    for quarter in 0..=QUARTERS {
        let x = LEFT + MILLIAMPERE * quarter / 4;
        let style = match quarter {
            0 => "stroke=\"black\" stroke-width=\"2\"",
            QUARTERS => "stroke=\"black\" stroke-width=\"2\" stroke-dasharray=\"6 4\"",
            _ => "stroke=\"#ccc\"",
        };
        drawn += &vertical(x, bottom, style);
        let label = format!("{:.2}", f64::from(quarter) / 4.0);
        drawn += &text(f64::from(x), f64::from(bottom) + 18.0, "middle", &label);
    }
    let middle = f64::from(LEFT + MILLIAMPERE);
    drawn + &text(middle, f64::from(bottom) + 40.0, "middle", "mA under the exact limit current")
}

/// The whole figure.
pub fn figure() -> String {
    let cables = published();
    let bottom = TOP + ROW * cables.len() as u32 + 4;
    let height = bottom + 54;
    let size = format!("width=\"{WIDTH}\" height=\"{height}\" viewBox=\"0 0 {WIDTH} {height}\"");
    let font = "font-family=\"sans-serif\" font-size=\"13\"";
    let mut svg = format!("<svg xmlns=\"http://www.w3.org/2000/svg\" {size} {font}>\n");
    svg += &format!("<title>{TITLE}</title>\n");
    svg += &format!("<rect width=\"{WIDTH}\" height=\"{height}\" fill=\"white\"/>\n");
    svg += &heading();
    svg += &axis(bottom);
    for (number, cable) in (0..).zip(&cables) {
        svg += &row(number, cable);
    }
    svg + "</svg>\n"
}
