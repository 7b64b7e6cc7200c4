//! How what a call takes grows with entries, clients and replicas: measured, printed as a table, and drawn.

use crate::axis::numbered;
use crate::cases::Case;
use crate::measure::{compared, Times};
use crate::svg::{picture, Line, Panel};
use crate::table;
use std::env::consts::ARCH;
use std::fs::{self, File};
use std::path::Path;

const ENTRIES: [u32; 5] = [16, 64, 256, 1_024, 4_096];

/// Each client has an entry before a round adds its 2,000, so a log of 4,096 has room for 2,096 clients. The last is that of
/// the cases.
const CLIENTS: [u32; 7] = [1, 4, 16, 64, 256, 1_024, 2_000];

const REPLICAS: [u8; 5] = [3, 4, 5, 6, 7];

/// What is measured: a case of so many replicas, and where along x it stands.
struct Point {
    x: f64,
    name: String,
    replicas: u8,
    case: Case,
}

/// What each point took, by its name.
type Figures<'a> = Vec<(&'a str, Times)>;

/// Measures all points, prints them and draws them to the file.
pub fn plot(file: &Path, rounds: usize) -> Result<(), String> {
    let failed = |why| format!("{} can't be written: {why}", file.display());
    // Measuring can take long, so a file that can't be written is noticed before it.
    let opened = File::options().append(true).create(true).open(file);
    drop(opened.map_err(failed)?);
    let growths = growths();
    let figures = measured(&growths, rounds);
    table::heading();
    for (name, times) in &figures {
        table::row(name, *times);
    }
    let title = "What a call takes as logs, clients and replicas grow";
    let bottom = format!(
        "bench --plot FILE.svg --rounds {rounds}; L = M = 4,096; {}",
        processor()
    );
    let svg = picture(title, &panels(&growths, &figures), &bottom);
    fs::write(file, svg).map_err(failed)
}

/// StartViews of 16 clients, StartViews of as many clients as entries, requests by clients, requests by replicas.
fn growths() -> [Vec<Point>; 4] {
    [
        ENTRIES.map(|entries| start_view(entries, 16)).into(),
        ENTRIES.map(|entries| start_view(entries, entries)).into(),
        CLIENTS
            .map(|clients| request(clients.into(), 3, clients))
            .into(),
        REPLICAS
            .map(|replicas| request(replicas.into(), replicas, 16))
            .into(),
    ]
}

fn start_view(entries: u32, clients: u32) -> Point {
    let [many, of] = [entries, clients].map(|count| numbered(count.into()));
    Point {
        x: entries.into(),
        name: format!("StartView, {many} entries of {of} clients"),
        replicas: 3,
        case: Case::StartView {
            entries: entries as usize,
            clients: clients as usize,
        },
    }
}

/// A request of clients that have a row already.
fn request(x: f64, replicas: u8, clients: u32) -> Point {
    let plural = if clients == 1 { "" } else { "s" };
    let many = numbered(clients.into());
    Point {
        x,
        name: format!("request, {replicas} replicas, {many} client{plural}, a later one"),
        replicas,
        case: Case::Request {
            clients: clients as usize,
            later: true,
        },
    }
}

/// Measures the points one after the other, and says so. One that stands in two growths is measured once.
fn measured(growths: &[Vec<Point>; 4], rounds: usize) -> Figures<'_> {
    let points = distinct(growths);
    let all = points.len();
    let mut figures = Figures::new();
    for (place, point) in (1..).zip(points) {
        let times = compared(point.replicas, point.case, rounds);
        eprintln!("bench: {place} of {all} measured: {}", point.name);
        figures.push((&point.name, times));
    }
    figures
}

/// The points of all growths, each once.
fn distinct(growths: &[Vec<Point>; 4]) -> Vec<&Point> {
    let mut points: Vec<&Point> = Vec::new();
    for point in growths.iter().flatten() {
        if points.iter().all(|other| other.name != point.name) {
            points.push(point);
        }
    }
    points
}

/// The three panels, widest where the most values stand along x.
fn panels(growths: &[Vec<Point>; 4], figures: &Figures) -> [Panel; 3] {
    let [few, many, clients, replicas] = growths;
    let mut start_views = lines(few, figures, 1_000.0, false);
    start_views.extend(lines(many, figures, 1_000.0, true));
    [
        Panel {
            title: "StartView",
            under: [
                "installed by a fresh backup, one of 3 replicas",
                "filled marks: 16 clients; hollow: one for each entry",
            ],
            x_label: "entries (logarithmic)",
            y_label: "time per StartView (µs, logarithmic)",
            logarithmic: (true, true),
            width: 320.0,
            lines: start_views,
        },
        Panel {
            title: "Committed request, by clients",
            under: ["3 replicas", "each client has a row already"],
            x_label: "clients (logarithmic)",
            y_label: "time per request (ns)",
            logarithmic: (true, false),
            width: 500.0,
            lines: lines(clients, figures, 1.0, false),
        },
        Panel {
            title: "Committed request, by replicas",
            under: ["16 clients", "each has a row already"],
            x_label: "replicas",
            y_label: "time per request (ns)",
            logarithmic: (false, false),
            width: 220.0,
            lines: lines(replicas, figures, 1.0, false),
        },
    ]
}

/// A line for each side, in a unit of so many nanoseconds.
fn lines(growth: &[Point], figures: &Figures, unit: f64, hollow: bool) -> Vec<Line> {
    let line = |side: usize| {
        let place = |point: &Point| {
            let (_, times) = figures.iter().find(|(name, _)| *name == point.name)?;
            Some((point.x, times[side]? / unit))
        };
        Line {
            side,
            hollow,
            points: growth.iter().filter_map(place).collect(),
        }
    };
    [0, 1, 2].map(line).into()
}

/// The processor's name, where Linux tells it; else its kind.
fn processor() -> String {
    let told = fs::read_to_string("/proc/cpuinfo").unwrap_or_default();
    let name = told.lines().find_map(named);
    name.unwrap_or(ARCH).to_string()
}

/// The name of a processor in a line of /proc/cpuinfo.
fn named(line: &str) -> Option<&str> {
    let (key, name) = line.split_once(':')?;
    (key.trim() == "model name" && !name.trim().is_empty()).then_some(name.trim())
}

#[cfg(test)]
mod tests {
    use super::*;
    use crate::sides::ROOM;

    /// Times that are invented: 700, 500 and 600 ns for each unit of x.
    fn invented(growths: &[Vec<Point>; 4]) -> Figures<'_> {
        let times = |point: &Point| [700.0, 500.0, 600.0].map(|each| Some(each * point.x));
        let points = distinct(growths).into_iter();
        points
            .map(|point| (point.name.as_str(), times(point)))
            .collect()
    }

    #[test]
    fn every_point_has_room() {
        for point in growths().iter().flatten() {
            let entries = match point.case {
                Case::Request { clients, .. } => clients + 2_000,
                Case::StartView { entries, .. } => entries,
                _ => panic!("{}", point.name),
            };
            assert!(entries <= ROOM as usize, "{}", point.name);
        }
    }

    #[test]
    fn a_point_of_two_growths_is_measured_once() {
        assert_eq!(growths().iter().flatten().count(), 22);
        assert_eq!(distinct(&growths()).len(), 20);
    }

    #[test]
    fn every_line_has_all_its_points() {
        let growths = growths();
        let [start_views, clients, replicas] = panels(&growths, &invented(&growths));
        assert_eq!(start_views.lines.len(), 6);
        for line in &start_views.lines {
            let xs: Vec<f64> = line.points.iter().map(|point| point.0).collect();
            assert_eq!(xs, ENTRIES.map(f64::from));
        }
        assert_eq!(start_views.lines[3].points[0], (16.0, 11.2));
        assert_eq!(clients.lines[2].points[6], (2_000.0, 1_200_000.0));
        assert_eq!(replicas.lines[1].points[4], (7.0, 3_500.0));
    }

    #[test]
    fn the_picture_is_small() {
        let growths = growths();
        let svg = picture("", &panels(&growths, &invented(&growths)), "");
        assert!(svg.len() < 60_000);
    }

    #[test]
    fn a_processor_is_told_by_its_model_name() {
        assert_eq!(
            named("model name\t: Intel(R) Xeon(R)"),
            Some("Intel(R) Xeon(R)")
        );
        assert_eq!(named("model\t\t: 207"), None);
        assert_eq!(named("model name\t: "), None);
    }
}
