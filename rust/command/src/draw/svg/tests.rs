mod tags;

use std::collections::BTreeMap;

use super::svg;
use crate::draw::rows::samples::{bench, pictures, planned, Rng, Truth};
use crate::log::{Log, Origin};
use tags::Node;

/// The classes that a picture's marks and bars have.
const BARS: [&str; 4] = ["run", "idle", "pending", "late"];
const MARKS: [&str; 4] = ["release", "due", "finish", "refused"];

/// The box around a node.
#[derive(Clone, Copy, Debug)]
struct Area {
    left: f64,
    right: f64,
    top: f64,
    bottom: f64,
}

impl Area {
    fn of(node: &Node) -> Area {
        match node.name.as_str() {
            "rect" => {
                let (left, top) = (node.number("x"), node.number("y"));
                Area {
                    left,
                    right: left + node.number("width"),
                    top,
                    bottom: top + node.number("height"),
                }
            }
            "circle" => {
                let (x, y, r) = (node.number("cx"), node.number("cy"), node.number("r"));
                Area {
                    left: x - r,
                    right: x + r,
                    top: y - r,
                    bottom: y + r,
                }
            }
            _ => Area::around(&points(node.get("d").unwrap())),
        }
    }

    fn around(points: &[(f64, f64)]) -> Area {
        let fold = |values: Vec<f64>, f: fn(f64, f64) -> f64| values.into_iter().reduce(f).unwrap();
        let xs = || points.iter().map(|point| point.0).collect();
        let ys = || points.iter().map(|point| point.1).collect();
        Area {
            left: fold(xs(), f64::min),
            right: fold(xs(), f64::max),
            top: fold(ys(), f64::min),
            bottom: fold(ys(), f64::max),
        }
    }

    fn middle(&self) -> f64 {
        (self.left + self.right) / 2.0
    }
}

/// The points of a path.
fn points(path: &str) -> Vec<(f64, f64)> {
    let mut points: Vec<(f64, f64)> = Vec::new();
    let mut rest = path;
    while let Some(letter) = rest.chars().next() {
        let end = rest[1..].find(|next: char| next.is_ascii_alphabetic());
        let end = end.map_or(rest.len(), |end| end + 1);
        let numbers: Vec<f64> = rest[1..end]
            .split_whitespace()
            .map(|n| n.parse().unwrap())
            .collect();
        let (x, y) = points.last().copied().unwrap_or_default();
        match (letter, numbers.as_slice()) {
            ('M', [x, y]) => points.push((*x, *y)),
            ('l' | 'm', [across, down]) => points.push((x + across, y + down)),
            ('h', [across]) => points.push((x + across, y)),
            ('H', [x]) => points.push((*x, y)),
            ('V', [y]) => points.push((x, *y)),
            ('z', []) => {}
            _ => panic!("{path}"),
        }
        rest = &rest[end..];
    }
    points
}

/// A band by its own geometry: what its axis and its labels say.
struct Band<'a> {
    node: &'a Node,
    /// A moment of the axis, where it is, and the width of a tick.
    moment: f64,
    x: f64,
    tick: f64,
    /// The rows from top to bottom: where each begins and ends, and its label.
    rows: Vec<(f64, f64, String)>,
}

impl<'a> Band<'a> {
    fn of(node: &'a Node, tick: f64) -> Band<'a> {
        let axis = axis(node);
        let (moment, x) = axis[0];
        let rules = node.of_class("rule").next().unwrap().get("d").unwrap();
        let mut tops: Vec<f64> = points(rules).iter().map(|point| point.1).collect();
        tops.dedup();
        let bottom = node.of_class("axis").next().unwrap().get("d").unwrap();
        tops.push(points(bottom)[0].1);
        let labels: Vec<&Node> = node.of_class("label").collect();
        assert_eq!(labels.len() + 1, tops.len());
        let row = |(label, edges): (&&Node, &[f64])| {
            let y = label.number("y");
            assert!(edges[0] < y && y < edges[1]);
            (edges[0], edges[1], label.text.clone())
        };
        let rows = labels.iter().zip(tops.windows(2)).map(row).collect();
        Band {
            node,
            moment,
            x,
            tick,
            rows,
        }
    }

    fn moment(&self, x: f64) -> usize {
        let moment = self.moment + (x - self.x) / self.tick;
        assert_eq!(moment.fract(), 0.0, "{x} is no moment");
        moment as usize
    }

    /// The label of the row that a box is in: with all its height in one row.
    fn label(&self, area: Area) -> &str {
        let inside = |row: &&(f64, f64, String)| row.0 <= area.top && area.bottom <= row.1;
        let row = self.rows.iter().find(inside);
        &row.unwrap_or_else(|| panic!("{area:?} is in no row")).2
    }
}

/// The numbers of an axis and where they are.
fn axis(band: &Node) -> Vec<(f64, f64)> {
    let number = |node: &Node| (node.text.parse().unwrap(), node.number("x"));
    band.of_class("moment").map(number).collect()
}

/// The width of a tick by the axes; of a picture whose axes have one number each, that of so few ticks.
fn tick(root: &Node) -> f64 {
    let bands = root.all();
    let bands = bands
        .iter()
        .filter(|node| node.get("class") == Some("band"));
    let mut widths = bands.flat_map(|band| {
        let axis = axis(band);
        axis.windows(2)
            .filter(|pair| pair[0].0 < pair[1].0)
            .map(|pair| (pair[1].1 - pair[0].1) / (pair[1].0 - pair[0].0))
            .collect::<Vec<f64>>()
    });
    let first = widths.next().unwrap_or(24.0);
    assert!(widths.all(|width| width == first), "one scale for all");
    first
}

/// What the data say that a node is of.
fn task(node: &Node) -> Option<u8> {
    node.count("data-task").map(|task| task as u8)
}

fn shown_by_data(core: &Node) -> Truth {
    let mut truth = Truth::default();
    for node in core.all() {
        let class = node.get("class").unwrap_or_default();
        let ticks = (node.count("data-from"), node.count("data-to"));
        match (ticks, node.count("data-moment")) {
            ((Some(from), Some(to)), None) if BARS.contains(&class) => {
                (from..=to).for_each(|tick| add(&mut truth, class, task(node), tick));
            }
            ((None, None), Some(moment)) => {
                let refusal = node.count("data-refusal").unwrap_or(0);
                truth.mark(class, task(node), moment, refusal as u8);
            }
            _ => assert!(
                !BARS.contains(&class) && !MARKS.contains(&class),
                "{node:?}"
            ),
        }
    }
    truth
}

/// No bar of a class has a tick that another has.
fn add(truth: &mut Truth, class: &str, task: Option<u8>, tick: usize) {
    let new = match class {
        "idle" => truth.idle.insert(tick),
        "run" => truth.runs.insert((task.unwrap(), tick)),
        "pending" => truth.pending.insert((task.unwrap(), tick)),
        _ => truth.late.insert((task.unwrap(), tick)),
    };
    assert!(new, "{class} {task:?} {tick} is there twice");
}

/// The task by the label of the row; in the row of other calls any number that no row has.
fn labelled(label: &str, node: &Node) -> Option<u8> {
    match label {
        "other calls" => task(node),
        "idle" => None,
        label => Some(label.split(' ').next().unwrap().parse().unwrap()),
    }
}

fn shown_by_geometry(core: &Node, tick: f64) -> Truth {
    let mut truth = Truth::default();
    for band in core.of_class("band").map(|node| Band::of(node, tick)) {
        for node in &band.node.children {
            let class = node.get("class").unwrap_or_default();
            if BARS.contains(&class) || MARKS.contains(&class) {
                take(&mut truth, &band, class, node);
            }
        }
    }
    truth
}

fn take(truth: &mut Truth, band: &Band, class: &str, node: &Node) {
    let area = Area::of(node);
    let label = band.label(area);
    assert_eq!(label == "idle", class == "idle");
    let task = labelled(label, node);
    let narrow = area.right - area.left == 4.0 && node.get("data-moment").is_some();
    if MARKS.contains(&class) || narrow {
        let refusal = node.count("data-refusal").unwrap_or(0) as u8;
        truth.mark(class, task, band.moment(area.middle()), refusal);
    } else {
        let ticks = band.moment(area.left) + 1..=band.moment(area.right);
        ticks.for_each(|tick| add(truth, class, task, tick));
    }
}

/// Arrows and crosses are above and below the bars, and apart from each other.
fn marks_hide_nothing(core: &Node, tick: f64) {
    for band in core.of_class("band").map(|node| Band::of(node, tick)) {
        let mut heights: BTreeMap<(&str, &str), (f64, f64)> = BTreeMap::new();
        for node in &band.node.children {
            let class = match node.get("class").unwrap_or_default() {
                "run" | "pending" => "bar",
                class @ ("release" | "due" | "refused") => class,
                _ => continue,
            };
            let area = Area::of(node);
            let at = heights.insert((band.label(area), class), (area.top, area.bottom));
            assert!(at.is_none_or(|at| at == (area.top, area.bottom)));
        }
        for ((label, class), (top, bottom)) in &heights {
            let others = heights
                .iter()
                .filter(|((other, of), _)| other == label && of != class);
            others.for_each(|(_, other)| assert!(other.1 <= *top || *bottom <= other.0));
        }
    }
}

fn data_core(log: &Log) -> String {
    match log.origin {
        Origin::Core(core) => core.to_string(),
        Origin::Bench => "bench".to_owned(),
    }
}

#[test]
fn data_and_geometry_show_what_the_log_has() {
    for logs in pictures() {
        let root = Node::parse(&svg(&logs));
        let tick = tick(&root);
        let cores: Vec<&Node> = root.of_class("core").collect();
        assert_eq!(cores.len(), logs.len());
        for (log, core) in logs.iter().zip(cores) {
            let truth = Truth::of(log);
            assert_eq!(shown_by_data(core), truth);
            assert_eq!(shown_by_geometry(core, tick), truth);
            let marked = core
                .all()
                .into_iter()
                .filter_map(|node| node.get("data-core"));
            let expected = data_core(log);
            assert!(marked.into_iter().all(|core| core == expected));
        }
    }
}

#[test]
fn marks_are_apart_and_in_their_rows() {
    for logs in pictures() {
        let root = Node::parse(&svg(&logs));
        let tick = tick(&root);
        root.of_class("core")
            .for_each(|core| marks_hide_nothing(core, tick));
    }
}

#[test]
fn all_of_a_picture_is_within_it() {
    for logs in pictures() {
        let root = Node::parse(&svg(&logs));
        let (width, height) = (root.number("width"), root.number("height"));
        assert!((900.0..=1200.0).contains(&width));
        for node in root.all() {
            if node.get("data-core").is_some() && node.name != "g" {
                let area = Area::of(node);
                assert!(area.left >= 0.0 && area.right <= width, "{node:?}");
                assert!(area.top >= 0.0 && area.bottom <= height, "{node:?}");
            } else if node.name == "text" {
                assert!(node.number("x") < width && node.number("y") < height);
            }
        }
    }
}

#[test]
fn a_tick_is_24_wide_at_40_ticks_and_never_below_4() {
    let mut rng = Rng(3);
    for (ticks, expected) in [
        (1, 24.0),
        (40, 24.0),
        (41, 23.0),
        (240, 4.0),
        (241, 4.0),
        (2000, 4.0),
    ] {
        let root = Node::parse(&svg(&[bench(&mut rng, ticks)]));
        assert_eq!(tick(&root), expected);
        let bands = root
            .of_class("core")
            .next()
            .unwrap()
            .of_class("band")
            .count();
        assert_eq!(bands, ticks.div_ceil(240));
    }
}

#[test]
fn labels_have_number_name_and_figures() {
    let logs = pictures()
        .into_iter()
        .flatten()
        .filter(|log| log.tasks.len() < 60);
    for log in logs {
        let root = Node::parse(&svg(std::slice::from_ref(&log)));
        let core = root.of_class("core").next().unwrap();
        let first = core.of_class("band").next().unwrap();
        let labels = first.of_class("label").zip(first.of_class("figures"));
        let mut shown = 0;
        for (task, (label, figures)) in log.tasks.iter().zip(labels) {
            let title = label.children.first().map(|title| title.text.clone());
            assert_eq!(title.unwrap_or_else(|| label.text.clone()), task.label());
            let (p, e, w) = (task.period, task.budget, task.within);
            let q = match task.stroke {
                1 => String::new(),
                stroke => format!(" q {stroke}"),
            };
            assert_eq!(figures.text, format!("p {p} e {e} w {w}{q}"));
            shown += 1;
        }
        assert_eq!(shown, log.tasks.len());
    }
}

#[test]
fn a_cross_names_its_refusal_and_the_last_of_a_moment_all() {
    let logs = crate::draw::rows::samples::made();
    let root = Node::parse(&svg(&logs[4..5]));
    let all = root.all();
    let crosses = all
        .iter()
        .filter(|node| node.get("class") == Some("refused"));
    let titles: Vec<&str> = crosses.map(|node| node.children[0].text.as_str()).collect();
    assert_eq!(
        titles,
        [
            "release 0: refused 18 place 0",
            "release 0: refused 18 place 0\nfinish 0: refused 20 place 0",
            "release 7: refused 17 place 0"
        ]
    );
}

#[test]
fn a_long_picture_is_small_enough() {
    let mut rng = Rng(21);
    let logs = loop {
        let logs = planned(&mut rng, 2000);
        if logs.iter().any(|log| log.tasks.len() >= 8) {
            break logs;
        }
    };
    let largest = logs
        .iter()
        .map(|log| svg(std::slice::from_ref(log)).len())
        .max();
    assert!(largest < Some(900_000), "{largest:?}");
}
