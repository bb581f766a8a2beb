//! The plot: what is drawn, in which colours and strokes, and that its words do not overlap.

use std::collections::BTreeSet;

use bench::growth::SERIES;
use bench::plot;

use crate::samples::summary;

/// The value of an attribute of an element.
fn value<'a>(element: &'a str, name: &str) -> &'a str {
    let start = format!(" {name}=\"");
    let (_, rest) = element.split_once(&start).expect("it has the attribute");
    rest.split('"').next().unwrap_or_default()
}

/// The elements of a name, each up to the next element.
fn elements<'a>(svg: &'a str, name: &str) -> Vec<&'a str> {
    let start = format!("{name} ");
    let elements = svg.split('<');
    elements.filter(|text| text.starts_with(&start)).collect()
}

#[test]
fn a_line_has_the_colour_of_its_call_and_the_stroke_of_its_implementation() {
    let svg = plot::svg(&summary());
    let lines = elements(&svg, "polyline");
    // List by three implementations in each panel; choose has no times there.
    assert_eq!(lines.len(), 3 * SERIES.len());
    let colours: BTreeSet<&str> = lines.iter().map(|line| value(line, "stroke")).collect();
    assert_eq!(colours.len(), 1);
    for panel in lines.chunks(3) {
        let strokes = panel.iter().map(|line| value(line, "stroke-dasharray"));
        let strokes: Vec<&str> = strokes.collect();
        // Solid, dotted and dashed; the dots lie over the solid line.
        assert_eq!(strokes, ["none", "0.1 7", "8 4"]);
    }
}

#[test]
fn the_legend_has_every_call_and_every_implementation_once() {
    let svg = plot::svg(&summary());
    for words in [
        "interval count",
        "fragmentation",
        "place",
        "list",
        "choose",
        "proved library",
        "plain Rust",
        "cell matrix",
    ] {
        assert_eq!(
            svg.matches(&format!(">{words}</text>")).count(),
            1,
            "{words}"
        );
    }
    let keys = elements(&svg, "line");
    let keys = keys
        .iter()
        .filter(|line| line.contains("stroke-width=\"4\""));
    let colours: BTreeSet<&str> = keys.map(|line| value(line, "stroke")).collect();
    assert_eq!(colours.len(), 5);
}

#[test]
fn the_axes_have_units_and_say_what_grows() {
    let svg = plot::svg(&summary());
    for series in &SERIES {
        for words in [series.axis, series.beside] {
            let words = format!(">{words}</text>");
            assert_eq!(svg.matches(&words).count(), 1, "{words}");
        }
    }
    let axis = ">ns, logarithmic</text>";
    assert_eq!(svg.matches(axis).count(), SERIES.len());
    let title = "<title>Times of the calls over what grows</title>";
    assert_eq!(svg.matches(title).count(), 1);
    // Plain takes 1,200 ns at least, the matrix 300,000 at most.
    for words in ["1,000", "200,000", "500,000"] {
        assert_eq!(
            svg.matches(&format!(">{words}</text>")).count(),
            SERIES.len()
        );
    }
    assert!(!svg.contains(">1,000,000<") && !svg.contains(">500<"));
    assert!(!svg.contains("NaN") && !svg.contains("inf"));
}

#[test]
fn words_do_not_overlap_and_lie_inside() {
    let svg = plot::svg(&summary());
    let number = |element: &str, name: &str| value(element, name).parse::<f64>().expect("a number");
    let boxes: Vec<(f64, f64, f64, f64)> = elements(&svg, "text")
        .iter()
        .map(|text| {
            let (_, words) = text.split_once('>').expect("an end of the attributes");
            // As wide as a wide font of 14 points has it.
            let width = 8.4 * words.chars().count() as f64;
            let left = match value(text, "text-anchor") {
                "start" => 0.0,
                "middle" => width / 2.0,
                _ => width,
            };
            let (x, y) = (number(text, "x") - left, number(text, "y"));
            (x, x + width, y - 11.0, y + 3.0)
        })
        .collect();
    assert!(boxes.len() > 50);
    let (_, after) = svg.split_once("<svg").expect("a picture");
    let (wide, high) = (number(after, "width"), number(after, "height"));
    for (index, &(left, right, top, bottom)) in boxes.iter().enumerate() {
        assert!(left >= 0.0 && right <= wide && top >= 0.0 && bottom <= high);
        for &(l, r, t, b) in &boxes[index + 1..] {
            let is_apart = right <= l || r <= left || bottom <= t || b <= top;
            assert!(is_apart, "words at {left}, {top} and at {l}, {t}");
        }
    }
}
