//! Colours, shapes and lines as parts of an SVG.

/// Colours that colour-blind people tell apart, none too light for white.
const COLOURS: [&str; 7] = [
    "#0072B2", "#D55E00", "#009E73", "#CC79A7", "#000000", "#B8860B", "#56B4E9",
];

/// The colour of a series by its number.
pub fn colour(number: usize) -> &'static str {
    COLOURS[number % COLOURS.len()]
}

/// Shapes around 0, 0; one that is a line is not filled.
const SHAPES: [&str; 6] = [
    "M-4,0a4,4 0 1,0 8,0a4,4 0 1,0 -8,0z",
    "M-3.6,-3.6h7.2v7.2h-7.2z",
    "M0,-4.8L4.6,3.4L-4.6,3.4z",
    "M0,-5.2L5.2,0L0,5.2L-5.2,0z",
    "M0,4.8L4.6,-3.4L-4.6,-3.4z",
    "M-4,-4L4,4M-4,4L4,-4",
];

/// The marker of a series by its number, at a place.
pub fn marker(number: usize, x: f64, y: f64) -> String {
    let (shape, colour) = (SHAPES[number % SHAPES.len()], colour(number));
    format!(
        "<path d=\"{shape}\" transform=\"translate({x:.1},{y:.1})\" fill=\"{colour}\" \
         stroke=\"{colour}\" stroke-width=\"1.6\"/>\n"
    )
}

/// A line through places.
pub fn line(places: &[(f64, f64)], colour: &str, width: f64) -> String {
    let points = points(places.iter().copied());
    format!(
        "<polyline points=\"{points}\" fill=\"none\" stroke=\"{colour}\" stroke-width=\"{width}\" \
         stroke-linejoin=\"round\"/>\n"
    )
}

/// An area inside places.
pub fn area(places: impl IntoIterator<Item = (f64, f64)>, colour: &str) -> String {
    let points = points(places);
    format!("<polygon points=\"{points}\" fill=\"{colour}\" fill-opacity=\"0.18\"/>\n")
}

fn points(places: impl IntoIterator<Item = (f64, f64)>) -> String {
    let places = places.into_iter().map(|(x, y)| format!("{x:.1},{y:.1}"));
    places.collect::<Vec<_>>().join(" ")
}

/// Words at a place: anchored at their start, middle or end.
pub fn text(x: f64, y: f64, anchor: &str, more: &str, words: &str) -> String {
    let words = words.replace('&', "&amp;").replace('<', "&lt;");
    format!("<text x=\"{x:.1}\" y=\"{y:.1}\" text-anchor=\"{anchor}\"{more}>{words}</text>\n")
}
