//! Charts of times as SVG.

mod ink;
mod scale;

pub use scale::Scale;

use ink::{area, colour, line, marker, text};
use scale::{time, Span};

/// A number on the horizontal axis and its times.
#[derive(Clone, Copy, Debug, PartialEq)]
pub struct Point {
    /// Where it stands.
    pub x: f64,
    /// The time on the line.
    pub time: f64,
    /// The lowest and the highest time, the edges of the band.
    pub spread: (f64, f64),
}

/// A line with its band.
#[derive(Clone, Debug, PartialEq)]
pub struct Series {
    /// Its name in the legend.
    pub name: String,
    /// Its points from left to right.
    pub points: Vec<Point>,
    /// Whether it is a thick line with no markers, that others are compared with.
    pub thick: bool,
}

/// A time that should not be passed at a number.
#[derive(Clone, Debug)]
pub struct Limit {
    /// The number.
    pub x: f64,
    /// The time.
    pub time: f64,
    /// What it is.
    pub name: String,
}

/// A chart.
#[derive(Clone, Debug)]
pub struct Chart {
    /// Its title.
    pub title: String,
    /// What the second line under the title says.
    pub note: String,
    /// What stands on the horizontal axis.
    pub counted: String,
    /// The scales of the horizontal axis and of the times.
    pub scales: (Scale, Scale),
    /// The numbers that are named on the horizontal axis, and their names.
    pub ticks: Vec<(f64, String)>,
    /// The lines.
    pub series: Vec<Series>,
    /// The limits.
    pub limits: Vec<Limit>,
}

const LEFT: f64 = 78.0;
const TOP: f64 = 84.0;
const WIDTH: f64 = 560.0;
const HEIGHT: f64 = 320.0;
const BELOW: f64 = 56.0;

/// From the frame to the first and the last number.
const INSET: f64 = 18.0;

const GREY: &str = " fill=\"#555555\"";
const STRONG: &str = " font-size=\"17\" font-weight=\"bold\"";

/// The axes of a chart, from numbers to places.
struct Frame {
    across: Span,
    up: Span,
    times: Vec<f64>,
}

impl Frame {
    fn of(chart: &Chart) -> Self {
        let points = || chart.series.iter().flat_map(|series| &series.points);
        let ends = points().flat_map(|point| [point.time, point.spread.0, point.spread.1]);
        let limits = chart.limits.iter().map(|limit| limit.time);
        let (up, times) = Span::of_times(chart.scales.1, ends.chain(limits));
        let across = Span::holding(chart.scales.0, points().map(|point| point.x));
        Self { across, up, times }
    }

    fn x(&self, number: f64) -> f64 {
        LEFT + INSET + self.across.place(number) * (WIDTH - 2.0 * INSET)
    }

    fn y(&self, time: f64) -> f64 {
        TOP + (1.0 - self.up.place(time)) * HEIGHT
    }
}

impl Chart {
    /// The chart as a file of its own.
    pub fn svg(&self) -> String {
        let frame = Frame::of(self);
        let names = self.series.iter().map(|series| series.name.chars().count());
        let legend = 70.0 + 6.6 * names.max().unwrap_or(0) as f64;
        let (width, height) = (LEFT + WIDTH + legend, TOP + HEIGHT + BELOW);
        let bands = self.all(|number, series| band(&frame, number, series));
        let lines = self.all(|number, series| drawn(&frame, number, series));
        let limits: String = self.limits.iter().map(|one| limit(&frame, one)).collect();
        let [title, note, axes, legend] = [
            text(LEFT, 30.0, "start", STRONG, &self.title),
            text(LEFT, 52.0, "start", GREY, &self.note),
            self.axes(&frame),
            self.legend(),
        ];
        format!(
            "<svg xmlns=\"http://www.w3.org/2000/svg\" version=\"1.1\" width=\"{width:.0}\" \
             height=\"{height:.0}\" viewBox=\"0 0 {width:.0} {height:.0}\" \
             font-family=\"Helvetica, Arial, sans-serif\" font-size=\"12\" fill=\"#222222\">\n\
             <rect width=\"100%\" height=\"100%\" fill=\"#FFFFFF\"/>\n\
             {title}{note}{axes}{bands}{lines}{limits}{legend}</svg>\n"
        )
    }

    /// Something of each series.
    fn all(&self, draw: impl Fn(usize, &Series) -> String) -> String {
        let numbered = self.series.iter().enumerate();
        numbered
            .map(|(number, series)| draw(number, series))
            .collect()
    }

    /// The lines at the ticks with their names, and what stands on the axes.
    fn axes(&self, frame: &Frame) -> String {
        let (right, bottom) = (LEFT + WIDTH, TOP + HEIGHT);
        let across = self.ticks.iter().map(|(number, name)| {
            let x = frame.x(*number);
            line(&[(x, bottom), (x, bottom + 5.0)], "#555555", 1.0)
                + &text(x, bottom + 19.0, "middle", "", name)
        });
        let up = frame.times.iter().map(|number| {
            let y = frame.y(*number);
            line(&[(LEFT, y), (right, y)], "#DDDDDD", 1.0)
                + &text(LEFT - 8.0, y + 4.0, "end", "", &time(*number))
        });
        let axes: String = up.chain(across).collect();
        let corner = [(LEFT, TOP), (LEFT, bottom), (right, bottom)];
        let middle = LEFT + WIDTH / 2.0;
        axes + &line(&corner, "#555555", 1.0)
            + &text(middle, bottom + 42.0, "middle", GREY, &self.counted)
            + &text(LEFT - 8.0, TOP - 14.0, "end", GREY, "time")
    }

    /// The names of the lines, in the order in which these end on the right.
    fn legend(&self) -> String {
        let mut order: Vec<usize> = (0..self.series.len()).collect();
        let last = |number: &usize| self.series[*number].points.last().map(|point| point.time);
        order.sort_by(|one, other| last(other).partial_cmp(&last(one)).expect("no NaN"));
        let entries = order.iter().enumerate().map(|(place, number)| {
            let (x, y) = (LEFT + WIDTH + 16.0, TOP + 10.0 + 22.0 * place as f64);
            let series = &self.series[*number];
            stroke(*number, series, &[(x, y), (x + 30.0, y)])
                + &mark(*number, series, x + 15.0, y)
                + &text(x + 38.0, y + 4.0, "start", "", &series.name)
        });
        entries.collect()
    }
}

fn stroke(number: usize, series: &Series, places: &[(f64, f64)]) -> String {
    match series.thick {
        true => line(places, "#777777", 6.0),
        false => line(places, colour(number), 1.8),
    }
}

fn mark(number: usize, series: &Series, x: f64, y: f64) -> String {
    match series.thick {
        true => String::new(),
        false => marker(number, x, y),
    }
}

/// The line and the markers of a series.
fn drawn(frame: &Frame, number: usize, series: &Series) -> String {
    let points = series.points.iter();
    let places: Vec<_> = points
        .map(|point| (frame.x(point.x), frame.y(point.time)))
        .collect();
    let marks = places.iter().map(|(x, y)| mark(number, series, *x, *y));
    stroke(number, series, &places) + &marks.collect::<String>()
}

/// The band of a series.
fn band(frame: &Frame, number: usize, series: &Series) -> String {
    let points = series.points.iter();
    let low = points
        .clone()
        .map(|point| (frame.x(point.x), frame.y(point.spread.0)));
    let high = points
        .rev()
        .map(|point| (frame.x(point.x), frame.y(point.spread.1)));
    area(low.chain(high), colour(number))
}

/// The bar of a limit, with its name to the left on a ground of its own.
fn limit(frame: &Frame, limit: &Limit) -> String {
    let (x, y) = (frame.x(limit.x), frame.y(limit.time));
    let name = |more: &str| text(x - 20.0, y + 4.0, "end", more, &limit.name);
    line(&[(x - 16.0, y), (x + 16.0, y)], "#000000", 3.0)
        + &name(
            " font-weight=\"bold\" stroke=\"#FFFFFF\" stroke-width=\"5\" stroke-linejoin=\"round\"",
        )
        + &name(" font-weight=\"bold\"")
}

#[cfg(test)]
mod tests;
