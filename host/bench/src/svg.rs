//! Panels with lines, side by side, written as SVG.

use crate::axis::{decades, numbered, steps, Axis};

/// A panel. Values along x are named where they were measured.
pub struct Panel {
    pub title: &'static str,
    /// Two lines under the title.
    pub under: [&'static str; 2],
    pub x_label: &'static str,
    pub y_label: &'static str,
    /// Whether x and y are logarithmic; a y that isn't begins at 0.
    pub logarithmic: (bool, bool),
    pub width: f64,
    pub lines: Vec<Line>,
}

/// What was measured of a side, x and y, in rising order of x.
pub struct Line {
    /// Its place in `STYLES`.
    pub side: usize,
    /// Whether its marks are hollow, to tell it from another line of this side.
    pub hollow: bool,
    pub points: Vec<(f64, f64)>,
}

/// How a side is drawn: what it is called, its colour, its dashes. Its marks differ too, so that no colour is needed.
const STYLES: [(&str, &str, &str); 3] = [
    ("Whitherhaul", "#12355b", "none"),
    ("vsr-rs, structs handed over", "#c8501e", "9 4"),
    (
        "vsr-rs with frames written and read around it",
        "#2a9d8f",
        "2 3",
    ),
];

/// Where the legend's samples begin.
const SAMPLES: [f64; 3] = [20.0, 200.0, 500.0];

/// The room left of a panel for its labels, and right of it.
const LEFT: f64 = 78.0;
const RIGHT: f64 = 20.0;

/// Where a panel's frame begins and ends, down the picture.
const TOP: f64 = 150.0;
const BOTTOM: f64 = 420.0;

/// How far from the frame's sides the first and the last mark stand.
const INSET: f64 = 18.0;

const HEIGHT: f64 = 506.0;

/// The whole picture: a title, the legend, the panels, and a small line at the bottom.
pub fn picture(title: &str, panels: &[Panel], bottom: &str) -> String {
    let width: f64 = panels.iter().map(|panel| LEFT + panel.width + RIGHT).sum();
    let title = escaped(title);
    let mut svg = format!(
        "<svg xmlns=\"http://www.w3.org/2000/svg\" viewBox=\"0 0 {width} {HEIGHT}\" role=\"img\" \
         font-family=\"sans-serif\" font-size=\"12\" fill=\"#222\">\n<title>{title}</title>\n\
         <rect width=\"{width}\" height=\"{HEIGHT}\" fill=\"white\"/>\n\
         <text x=\"20\" y=\"34\" font-size=\"20\" font-weight=\"bold\">{title}</text>\n"
    );
    legend(&mut svg);
    let mut left = 0.0;
    for panel in panels {
        left += LEFT;
        draw(&mut svg, panel, left);
        left += panel.width + RIGHT;
    }
    let bottom = escaped(bottom);
    svg += &format!("<text x=\"20\" y=\"492\" font-size=\"11\" fill=\"#555\">{bottom}</text>\n");
    svg + "</svg>\n"
}

fn legend(svg: &mut String) {
    for (side, ((name, ..), x)) in STYLES.into_iter().zip(SAMPLES).enumerate() {
        let points = [(x, 60.0), (x + 44.0, 60.0)];
        stroke(svg, side, false, &points);
        mark(svg, side, false, (x + 22.0, 60.0));
        svg.push_str(&format!(
            "<text x=\"{}\" y=\"65\" font-size=\"14\">{name}</text>\n",
            x + 52.0
        ));
    }
}

/// A panel whose frame begins here.
fn draw(svg: &mut String, panel: &Panel, left: f64) {
    let places = || panel.lines.iter().flat_map(|line| &line.points);
    let mut xs: Vec<f64> = places().map(|point| point.0).collect();
    xs.sort_by(f64::total_cmp);
    xs.dedup();
    let least = places().map(|point| point.1).fold(f64::INFINITY, f64::min);
    let most = places().map(|point| point.1).fold(0.0, f64::max);
    let ys = match panel.logarithmic.1 {
        true => decades(least, most),
        false => steps(most),
    };
    let x = Axis {
        values: (xs[0], xs[xs.len() - 1]),
        ends: (left + INSET, left + panel.width - INSET),
        logarithmic: panel.logarithmic.0,
    };
    let y = Axis {
        values: (ys[0], ys[ys.len() - 1]),
        ends: (BOTTOM, TOP),
        logarithmic: panel.logarithmic.1,
    };
    words(svg, panel, left);
    x_ticks(svg, &x, &xs);
    y_ticks(svg, &y, &ys, (left, left + panel.width));
    for line in &panel.lines {
        let place = |point: &(f64, f64)| (x.at(point.0), y.at(point.1));
        let points: Vec<(f64, f64)> = line.points.iter().map(place).collect();
        stroke(svg, line.side, line.hollow, &points);
        for point in points {
            mark(svg, line.side, line.hollow, point);
        }
    }
}

/// A panel's title, the lines under it, and what its axes are.
fn words(svg: &mut String, panel: &Panel, left: f64) {
    let start = left - LEFT + 20.0;
    let [first, second] = panel.under.map(escaped);
    let (title, x_label, y_label) = (panel.title, panel.x_label, panel.y_label);
    let [title, x_label, y_label] = [title, x_label, y_label].map(escaped);
    let middle = left + panel.width / 2.0;
    let (side, half) = (left - 57.0, (TOP + BOTTOM) / 2.0);
    *svg += &format!(
        "<text x=\"{start}\" y=\"100\" font-size=\"15\" font-weight=\"bold\">{title}</text>\n\
         <text x=\"{start}\" y=\"118\">{first}</text>\n<text x=\"{start}\" y=\"134\">{second}</text>\n\
         <text x=\"{middle}\" y=\"458\" font-size=\"13\" text-anchor=\"middle\">{x_label}</text>\n\
         <text transform=\"translate({side} {half}) rotate(-90)\" font-size=\"13\" \
         text-anchor=\"middle\">{y_label}</text>\n"
    );
}

fn x_ticks(svg: &mut String, axis: &Axis, values: &[f64]) {
    for value in values {
        let (x, name) = (axis.at(*value), numbered(*value));
        *svg += &format!(
            "<path d=\"M{x:.1} {BOTTOM}v6\" stroke=\"#222\"/>\
             <text x=\"{x:.1}\" y=\"438\" font-size=\"11\" text-anchor=\"middle\">{name}</text>\n"
        );
    }
}

/// The values up the left side, a line across the panel for each, and the panel's frame.
fn y_ticks(svg: &mut String, axis: &Axis, values: &[f64], (left, right): (f64, f64)) {
    for value in values {
        let (y, name) = (axis.at(*value), numbered(*value));
        *svg += &format!(
            "<path d=\"M{left} {y:.1}H{right}\" stroke=\"#ddd\"/>\
             <text x=\"{}\" y=\"{:.1}\" text-anchor=\"end\">{name}</text>\n",
            left - 7.0,
            y + 4.0
        );
    }
    *svg +=
        &format!("<path d=\"M{left} {TOP}V{BOTTOM}H{right}\" fill=\"none\" stroke=\"#222\"/>\n");
}

/// A side's line through these places of the picture.
fn stroke(svg: &mut String, side: usize, hollow: bool, points: &[(f64, f64)]) {
    let (_, colour, dashes) = STYLES[side];
    let width = if hollow { 1.3 } else { 2.0 };
    let pairs: Vec<String> = points
        .iter()
        .map(|(x, y)| format!("{x:.1},{y:.1}"))
        .collect();
    *svg += &format!(
        "<polyline points=\"{}\" fill=\"none\" stroke=\"{colour}\" stroke-width=\"{width}\" \
         stroke-dasharray=\"{dashes}\"/>\n",
        pairs.join(" ")
    );
}

/// A side's mark: a disc, a square, a triangle.
fn mark(svg: &mut String, side: usize, hollow: bool, (x, y): (f64, f64)) {
    let (_, colour, _) = STYLES[side];
    let fill = if hollow { "white" } else { colour };
    let shape = match side {
        0 => "m-4 0a4 4 0 1 0 8 0a4 4 0 1 0 -8 0z",
        1 => "m-3.7 -3.7h7.4v7.4h-7.4z",
        _ => "m0 -5l4.8 8.2h-9.6z",
    };
    *svg += &format!(
        "<path d=\"M{x:.1} {y:.1}{shape}\" fill=\"{fill}\" stroke=\"{colour}\" stroke-width=\"1.3\"/>\n"
    );
}

/// Words as they may stand in XML.
fn escaped(words: &str) -> String {
    let mut text = String::new();
    for letter in words.chars() {
        match letter {
            '&' => text += "&amp;",
            '<' => text += "&lt;",
            '>' => text += "&gt;",
            '"' => text += "&quot;",
            _ if letter.is_control() => text.push(' '),
            _ => text.push(letter),
        }
    }
    text
}

#[cfg(test)]
mod tests {
    use super::*;

    fn sample() -> String {
        let line = |side| Line {
            side,
            hollow: side == 1,
            points: vec![(1.0, 250.0), (10.0, 500.0), (100.0, 1_000.0)],
        };
        let panel = Panel {
            title: "a <title> & \"more\"",
            under: ["one", "two"],
            x_label: "x",
            y_label: "µs",
            logarithmic: (true, false),
            width: 236.0,
            lines: vec![line(0), line(1), line(2)],
        };
        picture("a & b", &[panel], "<bottom>\u{1}")
    }

    /// The names of the elements that are open after a text, which has to have nothing in it that XML doesn't allow.
    fn open(text: &str) -> Vec<&str> {
        let mut open = Vec::new();
        let mut rest = text;
        while let Some((before, behind)) = rest.split_once('<') {
            words_are_good(before);
            let (tag, behind) = behind.split_once('>').expect("an end of the tag");
            rest = behind;
            match tag.strip_prefix('/') {
                Some(name) => assert_eq!(open.pop(), Some(name)),
                None => open.extend(opened(tag)),
            }
        }
        words_are_good(rest);
        open
    }

    /// The name of a start tag, none where it is also its end. Its attributes have to be quoted, each name once.
    fn opened(tag: &str) -> Option<&str> {
        let start = tag.strip_suffix('/').unwrap_or(tag);
        let (name, mut rest) = start.split_once(' ').unwrap_or((start, ""));
        assert!(
            name.chars().all(|letter| letter.is_ascii_lowercase()),
            "{tag}"
        );
        let mut seen = Vec::new();
        while !rest.is_empty() {
            let (attribute, value) = rest.split_once("=\"").expect("a quoted value");
            let (value, behind) = value.split_once('"').expect("a quote at its end");
            assert!(!seen.contains(&attribute.trim()), "{tag}");
            seen.push(attribute.trim());
            words_are_good(value);
            rest = behind;
        }
        (start == tag).then_some(name)
    }

    fn words_are_good(words: &str) {
        for part in words.split('&').skip(1) {
            let known = ["amp;", "lt;", "gt;", "quot;"];
            assert!(known.iter().any(|name| part.starts_with(name)), "{words}");
        }
        assert!(!words.contains(|letter: char| letter.is_control() && letter != '\n'));
    }

    #[test]
    fn the_picture_is_well_formed() {
        let svg = sample();
        assert_eq!(open(&svg), [""; 0]);
        let (without_end, _) = svg.split_once("</svg>").expect("an end");
        assert_eq!(open(without_end), ["svg"]);
    }

    #[test]
    fn words_are_escaped() {
        assert_eq!(
            escaped("a<b> & \"c\"\u{1}"),
            "a&lt;b&gt; &amp; &quot;c&quot; "
        );
    }

    #[test]
    fn marks_stand_where_their_values_belong() {
        let svg = sample();
        // x from 96 to 296 over two decades, y from 420 up to 150 over 0 to 1,000.
        for place in ["M96.0 352.5m", "M196.0 285.0m", "M296.0 150.0m"] {
            assert_eq!(svg.matches(place).count(), 3, "{place}");
        }
        assert!(svg.contains("points=\"96.0,352.5 196.0,285.0 296.0,150.0\""));
    }

    #[test]
    fn sides_differ_without_colour() {
        let svg = sample();
        for (_, _, dashes) in STYLES {
            let line = format!("stroke-dasharray=\"{dashes}\"");
            assert_eq!(svg.matches(&line).count(), 2, "a sample and a line");
        }
        let shapes = [0, 1, 2].map(|side| {
            let mut svg = String::new();
            mark(&mut svg, side, true, (0.0, 0.0));
            svg.split(" fill").next().map(String::from)
        });
        assert!(shapes[0] != shapes[1] && shapes[1] != shapes[2] && shapes[0] != shapes[2]);
    }
}
