//! An SVG picture as it stands: a strict reader of its XML, and what its bands show by their geometry.

use std::collections::BTreeMap;

#[derive(Debug, Default)]
pub struct Element {
    pub name: String,
    pub attributes: BTreeMap<String, String>,
    pub text: String,
    pub children: Vec<Element>,
}

impl Element {
    pub fn class(&self) -> &str {
        self.attribute("class")
    }

    pub fn attribute(&self, name: &str) -> &str {
        self.attributes.get(name).map_or("", String::as_str)
    }

    pub fn number(&self, name: &str) -> f64 {
        let text = self.attribute(name);
        let number = text.parse().ok();
        number.unwrap_or_else(|| panic!("{name} `{text}` of {self:?}"))
    }

    pub fn whole(&self, name: &str) -> u64 {
        let text = self.attribute(name);
        let number = text.parse().ok();
        number.unwrap_or_else(|| panic!("{name} `{text}` of {self:?}"))
    }

    /// The children with a class.
    pub fn all<'a>(&'a self, class: &'a str) -> impl Iterator<Item = &'a Element> {
        self.children
            .iter()
            .filter(move |child| child.class() == class)
    }
}

/// The root of a document, which is well formed.
pub fn read(document: &str) -> Element {
    let mut open: Vec<Element> = Vec::new();
    let mut rest = document.trim_end();
    loop {
        let (text, tag) = rest
            .split_once('<')
            .unwrap_or_else(|| panic!("no tag: {rest}"));
        match open.last_mut() {
            Some(element) => element.text += &unescaped(text),
            None => assert!(text.trim().is_empty(), "text outside: {text}"),
        }
        let (tag, behind) = tag
            .split_once('>')
            .unwrap_or_else(|| panic!("an open tag: {tag}"));
        rest = behind;
        if let Some(name) = tag.strip_prefix('/') {
            let element = open.pop().expect("an end without a beginning");
            assert_eq!(element.name, name, "the end of another");
            let Some(parent) = open.last_mut() else {
                assert!(rest.is_empty(), "more behind the end: {rest}");
                return element;
            };
            parent.children.push(element);
        } else if let Some(tag) = tag.strip_suffix('/') {
            let parent = open.last_mut().expect("an element outside");
            parent.children.push(element(tag));
        } else {
            open.push(element(tag));
        }
    }
}

fn element(tag: &str) -> Element {
    let (name, mut rest) = tag.split_once(' ').unwrap_or((tag, ""));
    let mut attributes = BTreeMap::new();
    while !rest.trim().is_empty() {
        let (key, value) = rest.split_once("=\"").unwrap_or_else(|| panic!("`{tag}`"));
        let (value, behind) = value.split_once('"').unwrap_or_else(|| panic!("`{tag}`"));
        let before = attributes.insert(key.trim().to_owned(), unescaped(value));
        assert!(before.is_none(), "twice {key} in `{tag}`");
        rest = behind;
    }
    Element {
        name: name.to_owned(),
        attributes,
        ..Element::default()
    }
}

fn unescaped(text: &str) -> String {
    let mut parts = text.split('&');
    let mut plain = parts.next().unwrap_or_default().to_owned();
    for part in parts {
        let (name, rest) = part
            .split_once(';')
            .unwrap_or_else(|| panic!("a bare & in `{text}`"));
        plain.push(match name {
            "lt" => '<',
            "gt" => '>',
            "amp" => '&',
            "quot" => '"',
            "apos" | "#39" => '\'',
            other => panic!("&{other}; in `{text}`"),
        });
        plain += rest;
    }
    assert!(
        !plain.contains(|c: char| c.is_control() && c != '\n'),
        "`{plain}`"
    );
    plain
}

/// A core, a row and a tick or a moment.
pub type Spot = (String, String, u64);

/// What stands where, told from the labels of the rows and the numbers of the axis alone.
#[derive(Debug, Default, PartialEq, Eq)]
pub struct Shown {
    /// Core, row and tick of each rectangle, by its class.
    pub ticks: BTreeMap<String, Vec<Spot>>,
    /// Core, row and moment of each mark, by its class.
    pub marks: BTreeMap<String, Vec<Spot>>,
}

/// Reads a picture by its geometry, and holds the data of each thing against it.
pub fn shown(root: &Element) -> Shown {
    let mut shown = Shown::default();
    assert_eq!(root.name, "svg");
    for core in root.all("core") {
        for band in core.all("band") {
            Band::new(root, core, band).show(&mut shown);
        }
    }
    for list in shown.ticks.values_mut().chain(shown.marks.values_mut()) {
        list.sort();
    }
    shown
}

struct Band<'a> {
    element: &'a Element,
    core: &'a str,
    page: (f64, f64),
    /// Where the rows begin.
    rules: Vec<f64>,
    labels: BTreeMap<usize, String>,
    /// Where moment 0 would be, and the width of a tick.
    scale: Option<(f64, f64)>,
}

/// The numbers of an axis and where they stand.
fn moments(band: &Element) -> Vec<(f64, f64)> {
    let texts = band.all("moment");
    texts
        .map(|text| (text.text.parse().expect("a moment"), text.number("x")))
        .collect()
}

/// The width of a tick, by the first and the last number of an axis.
fn tick_width(band: &Element) -> Option<f64> {
    let moments = moments(band);
    let (first, last) = (moments[0], moments[moments.len() - 1]);
    (moments.len() > 1).then(|| (last.1 - first.1) / (last.0 - first.0))
}

impl Band<'_> {
    fn new<'a>(root: &Element, core: &'a Element, band: &'a Element) -> Band<'a> {
        let rule = band.all("rule").next().expect("rules of the rows");
        let starts = rule.attribute("d").split('M').skip(1);
        let start = |part: &str| {
            let part = part.split('H').next().unwrap_or_default();
            let y = part.split_once(' ').expect("x and y").1;
            y.parse().expect("a number")
        };
        let moments = moments(band);
        // a short band has one number, and the scale of the others of its core
        let tick = core.all("band").find_map(tick_width);
        let scale = tick.map(|tick| (moments[0].1 - moments[0].0 * tick, tick));
        let mut made = Band {
            element: band,
            core: core.attribute("data-core"),
            page: (root.number("width"), root.number("height")),
            rules: starts.map(start).collect(),
            labels: BTreeMap::new(),
            scale,
        };
        for (number, x) in moments {
            let moment = made.moment(x).unwrap_or(number as u64);
            assert_eq!(moment, number as u64, "the axis is even");
        }
        for label in band.all("label") {
            let row = made.row(label.number("y"));
            let before = made.labels.insert(row, label.text.clone());
            assert!(before.is_none(), "two labels in a row: {label:?}");
        }
        made
    }

    /// The row of a height.
    fn row(&self, y: f64) -> usize {
        let row = self.rules.iter().filter(|rule| **rule <= y).count();
        assert!(row > 0, "above the rows: {y}");
        row
    }

    /// The moment of a place; without a scale there is only one.
    fn moment(&self, x: f64) -> Option<u64> {
        let (zero, tick) = self.scale?;
        let moment = (x - zero) / tick;
        assert!(
            (moment - moment.round()).abs() < 0.02,
            "between moments: {x}"
        );
        Some(moment.round() as u64)
    }

    fn label(&self, y: f64) -> String {
        let label = self.labels.get(&self.row(y));
        label.unwrap_or_else(|| panic!("no label at {y}")).clone()
    }

    fn show(&self, shown: &mut Shown) {
        let mut other = 0;
        for child in &self.element.children {
            match child.class() {
                // a job that is late and has no tick to show it has a mark
                "late" if !child.attribute("data-moment").is_empty() => self.mark(child, shown),
                "run" | "pending" | "late" | "idle" => self.rectangle(child, shown),
                "release" | "due" | "finish" | "refused" => self.mark(child, shown),
                "rule" | "label" | "moment" => {}
                _ => other += 1,
            }
        }
        assert!(other < 1000, "{other} other things");
    }

    fn rectangle(&self, rect: &Element, shown: &mut Shown) {
        let (x, y) = (rect.number("x"), rect.number("y"));
        let (right, bottom) = (x + rect.number("width"), y + rect.number("height"));
        assert!(right <= self.page.0 && bottom <= self.page.1, "{rect:?}");
        assert_eq!(self.row(y), self.row(bottom), "in one row: {rect:?}");
        let label = self.label(y);
        let (from, to) = (
            self.moment(x).expect("a scale") + 1,
            self.moment(right).expect("a scale"),
        );
        assert!(from <= to, "{rect:?}");
        let data = (rect.whole("data-from"), rect.whole("data-to"));
        assert_eq!(data, (from, to), "{rect:?}");
        let band = (
            self.element.whole("data-from"),
            self.element.whole("data-to"),
        );
        assert!(band.0 <= from && to <= band.1, "{rect:?} in {band:?}");
        self.data(rect, &label);
        let ticks = shown.ticks.entry(rect.class().to_owned()).or_default();
        ticks.extend((from..=to).map(|tick| (self.core.to_owned(), label.clone(), tick)));
    }

    fn mark(&self, mark: &Element, shown: &mut Shown) {
        let (x, y) = match mark.name.as_str() {
            "circle" => (mark.number("cx"), mark.number("cy")),
            "rect" => (
                mark.number("x") + mark.number("width") / 2.0,
                mark.number("y"),
            ),
            _ => {
                // a triangle begins at its point, a cross left of its middle
                let path = mark.attribute("d").trim_start_matches('M');
                let (x, y) = path.split_once(' ').expect("x and y");
                let y = y.split(|c: char| !c.is_ascii_digit() && c != '.').next();
                let x: f64 = x.parse().expect("a number");
                let middle = if mark.class() == "refused" { 3.0 } else { 0.0 };
                (x + middle, y.unwrap_or_default().parse().expect("a number"))
            }
        };
        let moment = mark.whole("data-moment");
        assert_eq!(self.moment(x).unwrap_or(moment), moment, "{mark:?}");
        assert!(x <= self.page.0 && y <= self.page.1, "{mark:?}");
        let label = self.label(y);
        self.data(mark, &label);
        let mut class = mark.class().to_owned();
        if class == "refused" {
            class += &format!(" {}", mark.attribute("data-refusal"));
            if label == "other calls" {
                class += &format!(" of {}", mark.attribute("data-task"));
            }
        }
        let marks = shown.marks.entry(class).or_default();
        marks.push((self.core.to_owned(), label, moment));
    }

    fn data(&self, thing: &Element, label: &str) {
        assert_eq!(thing.attribute("data-core"), self.core, "{thing:?}");
        let task = label.split(' ').next().unwrap_or_default();
        match label {
            "idle" => assert_eq!(thing.class(), "idle"),
            "other calls" => {}
            _ => assert_eq!(thing.attribute("data-task"), task, "{thing:?}"),
        }
    }
}
