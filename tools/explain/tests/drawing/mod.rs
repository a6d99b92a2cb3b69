//! A picture taken apart: its elements with their attributes, and the shapes that they draw.
#![allow(dead_code)]

pub mod parts;
pub mod samples;
pub mod shapes;

use shapes::{Area, Outline, Point};

type Attributes = Vec<(String, String)>;

/// An element that is drawn, within groups.
pub struct Element {
    name: String,
    attributes: Attributes,
    /// The attributes of the groups around it, the outermost first, each with the group's number.
    groups: Vec<(usize, Attributes)>,
    pub text: String,
}

fn find<'a>(attributes: &'a Attributes, name: &str) -> Option<&'a str> {
    let found = attributes.iter().find(|(it, _)| it == name);
    found.map(|(_, value)| value.as_str())
}

impl Element {
    pub fn get(&self, name: &str) -> &str {
        find(&self.attributes, name).unwrap_or_default()
    }

    pub fn number(&self, name: &str) -> f64 {
        self.get(name).parse().expect(name)
    }

    pub fn is(&self, name: &str, class: &str) -> bool {
        self.name == name && (class.is_empty() || self.get("class") == class)
    }

    /// The value of an attribute of a group around the element.
    pub fn group(&self, name: &str) -> Option<&str> {
        let mut values = self.groups.iter().filter_map(|(_, it)| find(it, name));
        values.next_back()
    }

    /// The number of the group of a class around the element.
    pub fn within(&self, class: &str) -> Option<usize> {
        let own = |(_, it): &&(usize, Attributes)| find(it, "class") == Some(class);
        self.groups.iter().find(own).map(|(number, _)| *number)
    }

    /// Where a text is about to lie, in a usual font.
    pub fn text_area(&self) -> Area {
        let (x, y, size) = (self.number("x"), self.number("y"), self.number("font-size"));
        let bold = if self.get("font-weight") == "bold" {
            1.08
        } else {
            1.0
        };
        let signs: f64 = self.text.chars().map(sign_width).sum();
        let width = bold * size * signs;
        let left = match self.get("text-anchor") {
            "start" => x,
            "end" => x - width,
            _ => x - width / 2.0,
        };
        Area {
            low: (left, y - 0.78 * size),
            high: (left + width, y + 0.24 * size),
        }
    }

    pub fn rect_area(&self) -> Area {
        let low = (self.number("x"), self.number("y"));
        Area {
            low,
            high: (low.0 + self.number("width"), low.1 + self.number("height")),
        }
    }
}

fn sign_width(sign: char) -> f64 {
    match sign {
        'i' | 'j' | 'l' | ' ' | ',' | '.' | ':' | '\'' => 0.32,
        'f' | 'r' | 't' | '-' | '(' | ')' => 0.4,
        'm' | 'w' | '→' => 0.9,
        _ => 0.62,
    }
}

/// All that a picture draws.
pub struct Drawing {
    pub elements: Vec<Element>,
}

impl Drawing {
    pub fn of(picture: &str) -> Drawing {
        let mut elements: Vec<Element> = Vec::new();
        let mut groups: Vec<(usize, Attributes)> = Vec::new();
        for (number, part) in picture.split('<').skip(1).enumerate() {
            let (tag, text) = part.split_once('>').expect("a tag ends");
            let name = tag.split([' ', '/']).next().unwrap_or_default();
            if name == "g" {
                groups.push((number, attributes(tag)));
            } else if tag == "/g" {
                groups.pop();
            } else if !tag.starts_with('/') {
                elements.push(Element {
                    name: name.to_string(),
                    attributes: attributes(tag),
                    groups: groups.clone(),
                    text: plain(text.trim_end()),
                });
            }
        }
        Drawing { elements }
    }

    pub fn all(&self, name: &str, class: &str) -> impl Iterator<Item = &Element> {
        self.elements.iter().filter(move |it| it.is(name, class))
    }

    /// Each node with the middle of its circle and its radius.
    pub fn nodes(&self) -> Vec<(usize, Point, f64)> {
        let circles = self.all("circle", "node");
        let node = |it: &Element| {
            let middle = (it.number("cx"), it.number("cy"));
            (item(it.group("data-item"), "node"), middle, it.number("r"))
        };
        circles.map(node).collect()
    }

    /// Each station with its outlines.
    pub fn hulls(&self) -> Vec<(usize, Vec<Outline>)> {
        let hull = |it: &Element| {
            let outlines = it.get("d").split('M').skip(1).map(points);
            (item(it.group("data-item"), "station"), outlines.collect())
        };
        self.all("path", "hull").map(hull).collect()
    }

    /// Each arc with points along its line.
    pub fn bows(&self) -> Vec<(usize, Vec<Point>)> {
        let bow = |it: &Element| {
            let ends = points(it.get("d"));
            let along = (0..=20).map(|share| shapes::on_curve(&ends, f64::from(share) / 20.0));
            (item(it.group("data-item"), "arc"), along.collect())
        };
        self.all("path", "bow").map(bow).collect()
    }

    /// The texts at items, each line with the item as `arc 3`.
    pub fn labels(&self) -> Vec<(&str, &Element)> {
        let texts = self.all("text", "");
        texts
            .filter_map(|it| Some((it.group("data-of")?, it)))
            .collect()
    }

    /// What an item's text says, its lines joined by spaces.
    pub fn label(&self, item: &str) -> String {
        let labels = self.labels();
        let own = labels.iter().filter(|(of, _)| *of == item);
        own.map(|(_, it)| it.text.as_str())
            .collect::<Vec<_>>()
            .join(" ")
    }

    /// The lines of all frames: of charts and of stations.
    pub fn frames(&self) -> Vec<(Point, Point)> {
        let panels = self.all("rect", "frame").map(|it| it.rect_area().corners());
        let hulls = self.hulls().into_iter().flat_map(|(_, hull)| hull);
        panels
            .chain(hulls)
            .flat_map(|it| shapes::sides(&it))
            .collect()
    }
}

/// The number of an item of this kind.
fn item(address: Option<&str>, kind: &str) -> usize {
    let number = address.and_then(|it| it.strip_prefix(kind));
    number.expect(kind).trim().parse().expect(kind)
}

fn attributes(tag: &str) -> Attributes {
    let mut parts = tag.split('"');
    let mut found = Vec::new();
    while let (Some(name), Some(value)) = (parts.next(), parts.next()) {
        let name = name.rsplit([' ', '=']).find(|it| !it.is_empty());
        found.push((name.unwrap_or_default().to_string(), plain(value)));
    }
    found
}

fn plain(text: &str) -> String {
    let signs = [
        ("&lt;", "<"),
        ("&gt;", ">"),
        ("&quot;", "\""),
        ("&amp;", "&"),
    ];
    let turned = |text: String, (from, to): (&str, &str)| text.replace(from, to);
    signs.into_iter().fold(text.to_string(), turned)
}

pub fn point(word: &str) -> Point {
    let (x, y) = word.split_once(',').expect("a point");
    (x.parse().expect(word), y.parse().expect(word))
}

/// The points that a path names.
fn points(path: &str) -> Vec<Point> {
    let words = path.split(|sign: char| sign == ' ' || sign.is_ascii_uppercase());
    words.filter(|word| !word.is_empty()).map(point).collect()
}
