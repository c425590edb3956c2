//! Panels with logarithmic axes as SVG, one for each shape, and their points as a table.

use crate::markdown;

/// Panels stand in rows of so many; behind the last one stands the legend.
const COLUMNS: usize = 3;
const CELL_WIDTH: f64 = 340.0;
const CELL_HEIGHT: f64 = 266.0;
/// Room above all panels, for the title.
const HEAD: f64 = 44.0;

/// How the programs are told apart, in their order: by colour, by dashes, and by the shapes
/// of the points.
const COLOURS: [&str; 3] = ["#1f5fbf", "#b3261e", "#2e7d32"];
const DASHES: [&str; 3] = ["", " stroke-dasharray=\"7 4\"", " stroke-dasharray=\"2 3\""];

/// One shape: for each size the time of each program.
pub struct Series {
    name: &'static str,
    points: Vec<(usize, Vec<f64>)>,
}

impl Series {
    pub fn new(name: &'static str, mut points: Vec<(usize, Vec<f64>)>) -> Series {
        points.dedup_by_key(|point| point.0);
        Series { name, points }
    }

    fn rows(&self) -> impl Iterator<Item = Vec<String>> + '_ {
        self.points.iter().map(|(size, times)| {
            let mut row = vec![self.name.to_string(), markdown::whole(*size as u64)];
            row.extend(times.iter().map(|&time| markdown::microseconds(time)));
            row
        })
    }
}

/// All panels have the same axes; `sizes` are the numbers along the lower one.
pub struct Plot {
    pub title: &'static str,
    pub across: &'static str,
    pub up: &'static str,
    pub sizes: Vec<usize>,
    pub programs: Vec<&'static str>,
    pub series: Vec<Series>,
}

/// An axis: the logarithms at its ends, and where these are drawn.
struct Axis {
    low: f64,
    high: f64,
    start: f64,
    end: f64,
}

impl Axis {
    /// A little wider than the values.
    fn around(values: &[f64], start: f64, end: f64) -> Axis {
        const MARGIN: f64 = 0.08;
        let least = values.iter().copied().fold(f64::MAX, f64::min);
        let most = values.iter().copied().fold(0.0, f64::max);
        Axis {
            low: least.log10() - MARGIN,
            high: most.log10() + MARGIN,
            start,
            end,
        }
    }

    fn place(&self, value: f64) -> f64 {
        let part = (value.log10() - self.low) / (self.high - self.low);
        self.start + part * (self.end - self.start)
    }

    /// The powers of ten that lie on it.
    fn powers(&self) -> impl Iterator<Item = f64> {
        let exponents = self.low.ceil() as i32..=self.high.floor() as i32;
        exponents.map(|exponent| 10_f64.powi(exponent))
    }
}

/// Where a panel's axes are drawn.
struct Frame {
    left: f64,
    right: f64,
    top: f64,
    bottom: f64,
}

impl Frame {
    fn of(number: usize) -> Frame {
        let x = CELL_WIDTH * (number % COLUMNS) as f64;
        let y = HEAD + CELL_HEIGHT * (number / COLUMNS) as f64;
        Frame {
            left: x + 62.0,
            right: x + CELL_WIDTH - 14.0,
            top: y + 26.0,
            bottom: y + CELL_HEIGHT - 40.0,
        }
    }
}

impl Plot {
    /// The points, a line for each.
    pub fn text(&self) -> String {
        let heads = [&["Shape", self.across], &self.programs[..]].concat();
        let rows: Vec<Vec<String>> = self.series.iter().flat_map(Series::rows).collect();
        format!("{}\n\n{}\n", self.title, markdown::table(&heads, &rows))
    }

    pub fn svg(&self) -> String {
        let rows = (self.series.len() + 1).div_ceil(COLUMNS) as f64;
        let (width, height) = (CELL_WIDTH * COLUMNS as f64, HEAD + CELL_HEIGHT * rows);
        let mut svg = format!(
            "<svg xmlns=\"http://www.w3.org/2000/svg\" width=\"{width}\" height=\"{height}\" \
             viewBox=\"0 0 {width} {height}\" font-family=\"sans-serif\">\n\
             <rect width=\"{width}\" height=\"{height}\" fill=\"#ffffff\"/>\n"
        );
        svg += &text(width / 2.0, 28.0, "middle", 17, self.title);
        for (number, series) in self.series.iter().enumerate() {
            svg += &self.panel(series, &Frame::of(number));
        }
        svg + &self.legend(&Frame::of(self.series.len())) + "</svg>\n"
    }

    fn panel(&self, series: &Series, frame: &Frame) -> String {
        let points = || self.series.iter().flat_map(|series| &series.points);
        let sizes = points().map(|point| point.0).chain(self.sizes.clone());
        let sizes: Vec<f64> = sizes.map(|size| size as f64).collect();
        let times: Vec<f64> = points().flat_map(|point| point.1.clone()).collect();
        let across = Axis::around(&sizes, frame.left, frame.right);
        let up = Axis::around(&times, frame.bottom, frame.top);
        let mut svg = self.grid(frame, &across, &up);
        svg += &text(frame.left, frame.top - 9.0, "start", 14, series.name);
        for program in (0..self.programs.len()).rev() {
            let place = |(size, times): &(usize, Vec<f64>)| {
                [across.place(*size as f64), up.place(times[program])]
            };
            let places: Vec<[f64; 2]> = series.points.iter().map(place).collect();
            svg += &curve(&places, program);
        }
        svg
    }

    /// Lines and numbers of both axes.
    fn grid(&self, frame: &Frame, across: &Axis, up: &Axis) -> String {
        let mut svg = String::new();
        for &size in &self.sizes {
            let x = across.place(size as f64);
            svg += &line([x, frame.top], [x, frame.bottom]);
            let number = markdown::whole(size as u64);
            svg += &text(x, frame.bottom + 16.0, "middle", 11, &number);
        }
        for power in up.powers() {
            let y = up.place(power);
            svg += &line([frame.left, y], [frame.right, y]);
            let number = match power {
                ..1.0 => power.to_string(),
                _ => markdown::whole(power as u64),
            };
            svg += &text(frame.left - 6.0, y + 4.0, "end", 11, &number);
        }
        svg
    }

    /// Which curve is which program's, and what the axes are.
    fn legend(&self, frame: &Frame) -> String {
        let (x, mut y) = (frame.left, frame.top + 20.0);
        let mut svg = String::new();
        for (program, name) in self.programs.iter().enumerate() {
            svg += &curve(&[[x, y], [x + 44.0, y]], program);
            svg += &text(x + 56.0, y + 5.0, "start", 14, name);
            y += 26.0;
        }
        for (word, axis) in [("across", self.across), ("up", self.up)] {
            y += 20.0;
            svg += &text(x, y, "start", 13, &format!("{word}: {axis}"));
        }
        svg
    }
}

fn line(from: [f64; 2], to: [f64; 2]) -> String {
    format!(
        "<line x1=\"{:.1}\" y1=\"{:.1}\" x2=\"{:.1}\" y2=\"{:.1}\" stroke=\"#d8d8d8\"/>\n",
        from[0], from[1], to[0], to[1]
    )
}

fn text(x: f64, y: f64, anchor: &str, size: usize, content: &str) -> String {
    format!("<text x=\"{x:.1}\" y=\"{y:.1}\" text-anchor=\"{anchor}\" font-size=\"{size}\">{content}</text>\n")
}

fn joined(places: &[[f64; 2]]) -> String {
    let places = places.iter().map(|[x, y]| format!("{x:.1},{y:.1}"));
    places.collect::<Vec<String>>().join(" ")
}

fn curve(places: &[[f64; 2]], program: usize) -> String {
    let (colour, dashes, path) = (COLOURS[program], DASHES[program], joined(places));
    let mut svg = format!(
        "<polyline points=\"{path}\" fill=\"none\" stroke=\"{colour}\" stroke-width=\"2\"{dashes}/>\n"
    );
    for place in places {
        svg += &point(*place, program);
    }
    svg
}

/// A full circle, a hollow square, a hollow triangle.
fn point([x, y]: [f64; 2], program: usize) -> String {
    let colour = COLOURS[program];
    let corners: &[[f64; 2]] = match program {
        0 => return format!("<circle cx=\"{x:.1}\" cy=\"{y:.1}\" r=\"3.5\" fill=\"{colour}\"/>\n"),
        1 => &[[-3.5, -3.5], [3.5, -3.5], [3.5, 3.5], [-3.5, 3.5]],
        _ => &[[0.0, -4.5], [4.5, 3.5], [-4.5, 3.5]],
    };
    let places = corners.iter().map(|[right, down]| [x + right, y + down]);
    let path = joined(&places.collect::<Vec<[f64; 2]>>());
    format!(
        "<polygon points=\"{path}\" fill=\"#ffffff\" stroke=\"{colour}\" stroke-width=\"1.5\"/>\n"
    )
}
