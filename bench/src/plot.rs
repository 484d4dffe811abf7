//! Plots of lines as SVG, with no fonts or scripts from elsewhere.

use std::fmt::Write;

const WIDTH: f64 = 720.0;
const HEIGHT: f64 = 420.0;
const LEFT: f64 = 80.0;
const RIGHT: f64 = 170.0;
const TOP: f64 = 62.0;
const BOTTOM: f64 = 55.0;

/// Told apart by those who do not see all colours, too.
const COLOURS: [&str; 4] = ["#0072b2", "#d55e00", "#009e73", "#cc79a7"];

/// The least distance of two names at the ends of their lines.
const NAME_GAP: f64 = 17.0;

pub struct Line {
    pub name: String,
    pub points: Vec<(f64, f64)>,
}

pub struct Plot {
    pub title: String,
    pub x_name: String,
    pub y_name: String,
    pub x_ticks: Vec<f64>,
    pub lines: Vec<Line>,
}

/// A step of 1, 2 or 5 times a power of ten that divides a length into at most six parts.
fn tick_step(length: f64) -> f64 {
    let power = 10f64.powf((length / 6.0).log10().floor());
    let fits = |step: &f64| length / step <= 6.0;
    let steps = [1.0, 2.0, 5.0, 10.0].map(|factor| factor * power);
    steps.into_iter().find(fits).unwrap_or(length)
}

/// Digits in groups of three; one decimal where the number is not whole.
fn label(x: f64) -> String {
    if x.fract().abs() > 1e-9 {
        return format!("{x:.1}");
    }
    crate::markdown::grouped(x.round() as usize)
}

struct Scale {
    x_from: f64,
    x_to: f64,
    y_to: f64,
}

impl Scale {
    fn x(&self, x: f64) -> f64 {
        LEFT + (x - self.x_from) / (self.x_to - self.x_from) * (WIDTH - LEFT - RIGHT)
    }

    fn y(&self, y: f64) -> f64 {
        HEIGHT - BOTTOM - y / self.y_to * (HEIGHT - TOP - BOTTOM)
    }
}

impl Plot {
    pub fn svg(&self) -> String {
        let mut svg = format!(
            "<svg xmlns=\"http://www.w3.org/2000/svg\" viewBox=\"0 0 {WIDTH} {HEIGHT}\" \
             font-family=\"sans-serif\" font-size=\"13\">\n\
             <rect width=\"{WIDTH}\" height=\"{HEIGHT}\" fill=\"white\"/>\n"
        );
        text(&mut svg, (LEFT, 22.0), "start", &self.title);
        let scale = self.scale();
        self.axes(&mut svg, &scale);
        self.draw_lines(&mut svg, &scale);
        svg.push_str("</svg>\n");
        svg
    }

    fn scale(&self) -> Scale {
        let points = self.lines.iter().flat_map(|line| &line.points);
        let most = points.fold(0.0, |most: f64, point| most.max(point.1));
        let step = tick_step(most);
        Scale {
            x_from: self.x_ticks[0],
            x_to: self.x_ticks[self.x_ticks.len() - 1],
            y_to: (most / step).ceil() * step,
        }
    }

    fn axes(&self, svg: &mut String, scale: &Scale) {
        let (right, bottom) = (WIDTH - RIGHT, HEIGHT - BOTTOM);
        let step = tick_step(scale.y_to);
        let steps = (scale.y_to / step).round() as usize;
        for y in (0..=steps).map(|i| i as f64 * step) {
            let at = scale.y(y);
            segment(svg, (LEFT, at), (right, at), "#dddddd");
            text(svg, (LEFT - 8.0, at + 4.0), "end", &label(y));
        }
        for &x in &self.x_ticks {
            let at = scale.x(x);
            segment(svg, (at, bottom), (at, bottom + 5.0), "#444444");
            text(svg, (at, bottom + 19.0), "middle", &label(x));
        }
        segment(svg, (LEFT, bottom), (right, bottom), "#444444");
        text(
            svg,
            ((LEFT + right) / 2.0, HEIGHT - 12.0),
            "middle",
            &self.x_name,
        );
        text(svg, (LEFT, TOP - 14.0), "start", &self.y_name);
    }

    fn draw_lines(&self, svg: &mut String, scale: &Scale) {
        let heights = self.name_heights(scale);
        for (place, (line, height)) in self.lines.iter().zip(heights).enumerate() {
            let colour = COLOURS[place % COLOURS.len()];
            let mut points = String::new();
            for &(x, y) in &line.points {
                let _ = write!(points, "{:.1},{:.1} ", scale.x(x), scale.y(y));
                let _ = writeln!(
                    svg,
                    "<circle cx=\"{:.1}\" cy=\"{:.1}\" r=\"3\" fill=\"{colour}\"/>",
                    scale.x(x),
                    scale.y(y)
                );
            }
            let _ = writeln!(
                svg,
                "<polyline points=\"{}\" fill=\"none\" stroke=\"{colour}\" stroke-width=\"2\"/>",
                points.trim_end()
            );
            let _ = writeln!(
                svg,
                "<text x=\"{:.1}\" y=\"{height:.1}\" fill=\"{colour}\">{}</text>",
                WIDTH - RIGHT + 10.0,
                line.name
            );
        }
    }

    /// Where the name of each line stands: beside its end, but no two on one another.
    fn name_heights(&self, scale: &Scale) -> Vec<f64> {
        let end = |line: &Line| {
            line.points
                .last()
                .map_or(0.0, |point| scale.y(point.1) + 4.0)
        };
        let mut heights: Vec<(usize, f64)> = self.lines.iter().map(end).enumerate().collect();
        heights.sort_by(|a, b| b.1.total_cmp(&a.1));
        for place in 1..heights.len() {
            heights[place].1 = heights[place].1.min(heights[place - 1].1 - NAME_GAP);
        }
        heights.sort_by_key(|&(line, _)| line);
        heights.into_iter().map(|(_, height)| height).collect()
    }
}

fn text(svg: &mut String, (x, y): (f64, f64), anchor: &str, words: &str) {
    let _ = writeln!(
        svg,
        "<text x=\"{x:.1}\" y=\"{y:.1}\" text-anchor=\"{anchor}\" fill=\"#222222\">{words}</text>"
    );
}

fn segment(svg: &mut String, from: (f64, f64), to: (f64, f64), colour: &str) {
    let _ = writeln!(
        svg,
        "<line x1=\"{:.1}\" y1=\"{:.1}\" x2=\"{:.1}\" y2=\"{:.1}\" stroke=\"{colour}\"/>",
        from.0, from.1, to.0, to.1
    );
}
