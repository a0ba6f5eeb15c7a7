use super::*;

fn point(x: f64, time: f64) -> Point {
    Point {
        x,
        time,
        spread: (time * 0.9, time * 1.1),
    }
}

fn series(name: &str, points: &[(f64, f64)]) -> Series {
    Series {
        name: name.to_owned(),
        points: points.iter().map(|(x, time)| point(*x, *time)).collect(),
        thick: false,
    }
}

fn chart() -> Chart {
    Chart {
        title: "Check & <list>".to_owned(),
        note: "median".to_owned(),
        counted: "files".to_owned(),
        scales: (Scale::Linear, Scale::Linear),
        ticks: vec![(0.0, "0".to_owned()), (10.0, "ten".to_owned())],
        series: vec![
            series("proved", &[(0.0, 100.0), (5.0, 250.0), (10.0, 400.0)]),
            series("reference", &[(0.0, 200.0), (5.0, 300.0), (10.0, 450.0)]),
        ],
        limits: Vec::new(),
    }
}

/// The elements of an SVG, each closed by itself or by its own end.
fn elements(svg: &str) -> Vec<&str> {
    let (mut open, mut all) = (Vec::new(), Vec::new());
    for part in svg.split('<').skip(1) {
        let (tag, words) = part.split_once('>').expect("a tag ends");
        assert!(!words.contains('&') || words.contains("&amp;"), "{words}");
        assert_eq!(tag.matches('"').count() % 2, 0, "{tag}");
        let name = tag.split([' ', '/']).next().expect("a name");
        match tag.strip_prefix('/') {
            Some(end) => assert_eq!(open.pop(), Some(end)),
            None if tag.ends_with('/') => all.push(tag),
            None => {
                open.push(name);
                all.push(tag);
            }
        }
    }
    assert_eq!(open, [""; 0]);
    all
}

/// The places of the markers, in the order in which they are drawn.
fn markers(svg: &str) -> Vec<(f64, f64)> {
    let all = elements(svg).into_iter();
    let places = all.filter_map(|tag| tag.split_once("translate(")?.1.split_once(')'));
    let places = places.map(|(place, _)| place.split_once(',').expect("two numbers"));
    places
        .map(|(x, y)| (x.parse().expect("x"), y.parse().expect("y")))
        .collect()
}

#[test]
fn a_chart_is_well_formed_and_a_file_of_its_own() {
    let svg = chart().svg();
    let all = elements(&svg);
    assert!(all[0].starts_with("svg xmlns=\"http://www.w3.org/2000/svg\" version=\"1.1\""));
    assert!(svg.contains(">Check &amp; &lt;list></text>"));
    assert!(!svg.contains("script") && !svg.contains("href"));
}

#[test]
fn points_stand_where_their_numbers_are() {
    let svg = chart().svg();
    let places = markers(&svg);
    let (left, right) = (LEFT + INSET, LEFT + WIDTH - INSET);
    let y = |time: f64| TOP + HEIGHT - time / 500.0 * HEIGHT;
    let expected = [
        (left, y(100.0)),
        ((left + right) / 2.0, y(250.0)),
        (right, y(400.0)),
    ];
    assert_eq!(places[..3], expected);
}

#[test]
fn points_of_a_log_chart_stand_at_their_powers() {
    let mut chart = chart();
    chart.scales = (Scale::Log, Scale::Log);
    chart.ticks.clear();
    let points = [(1.0, 1e3), (10.0, 1e4), (100.0, 1e5)];
    chart.series = vec![series("proved", &points)];
    for point in &mut chart.series[0].points {
        point.spread = (point.time, point.time);
    }
    let places = markers(&chart.svg());
    let middle = (LEFT + WIDTH / 2.0, TOP + HEIGHT / 2.0);
    assert_eq!(places[1], middle);
    assert_eq!((places[0].1, places[2].1), (TOP + HEIGHT, TOP));
}

#[test]
fn every_series_has_a_line_a_band_and_a_name() {
    let svg = chart().svg();
    let all = elements(&svg);
    let count = |start: &str| all.iter().filter(|tag| tag.starts_with(start)).count();
    assert_eq!(count("polygon"), 2);
    for number in 0..2 {
        let stroke = format!("stroke=\"{}\" stroke-width=\"1.8\"", colour(number));
        let lines = all.iter().filter(|tag| tag.contains(&stroke));
        assert_eq!(lines.count(), 2, "in the frame and in the legend");
    }
    assert!(svg.contains(">proved</text>") && svg.contains(">reference</text>"));
    assert_eq!(markers(&svg).len(), 2 * 3 + 2);
}

#[test]
fn a_band_goes_from_the_lowest_to_the_highest_times() {
    let mut chart = chart();
    chart.series.truncate(1);
    chart.series[0].points[0].spread = (0.0, 500.0);
    let svg = chart.svg();
    let band = elements(&svg)
        .into_iter()
        .find(|tag| tag.starts_with("polygon"));
    let (x, low, high) = (LEFT + INSET, TOP + HEIGHT, TOP);
    let band = band.expect("a band");
    assert!(
        band.contains(&format!("points=\"{x:.1},{low:.1} ")),
        "{band}"
    );
    assert!(band.contains(&format!(" {x:.1},{high:.1}\"")), "{band}");
}

#[test]
fn a_thick_series_has_no_markers_and_a_limit_has_its_bar() {
    let mut chart = chart();
    chart.series[0].thick = true;
    chart.limits.push(Limit {
        x: 10.0,
        time: 250.0,
        name: "4 times".to_owned(),
    });
    let svg = chart.svg();
    assert_eq!(markers(&svg).len(), 3 + 1);
    let (right, y) = (LEFT + WIDTH - INSET, TOP + HEIGHT / 2.0);
    let bar = format!(
        "points=\"{:.1},{y:.1} {:.1},{y:.1}\"",
        right - 16.0,
        right + 16.0
    );
    assert!(svg.contains(&bar), "{svg}");
    assert!(svg.contains(">4 times</text>"));
}
