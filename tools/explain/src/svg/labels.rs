//! Places for texts where they hide as little as possible.

use super::area::Area;
use super::bow::{Bow, NODE_RADIUS, SIGN};
use super::canvas::Canvas;
use super::font::Font;
use super::point::{Point, at};
use super::polygon::{holds, sides};
use super::texts::{Texts, address};
use crate::explanation::Mark;

/// How bad it is to cover what is drawn: a square pixel of it, or a pixel of a line.
const NODE: f64 = 30.0;
const OTHER: f64 = 8.0;
const LINE: f64 = 3.0;
const FRAME: f64 = 400.0;
const LITTLE: f64 = 20.0;
/// Texts are put down one after the other, and then again in the light of all others.
const ROUNDS: usize = 4;
/// A text keeps so clear of a frame, and so far from others across.
const OFF_FRAME: f64 = 3.0;
const ACROSS: f64 = 6.0;
/// A text further than this from its item has a line to it.
const NEAR: f64 = 36.0;

/// Lines of text at an item, with their place.
#[derive(Clone)]
pub struct Label {
    pub of: Mark,
    lines: Vec<String>,
    font: Font,
    pub area: Area,
    /// The point of the item that the text stands at.
    item: Point,
}

/// Where the middle of a text may stand.
#[derive(Clone, Copy)]
pub struct Spot {
    pub middle: Point,
    /// From where its lines go.
    pub anchor: &'static str,
    pub item: Point,
    /// How much worse it is than the first spot.
    pub cost: f64,
}

/// A text that needs a place.
pub struct Wanted {
    label: Label,
    spots: Vec<Spot>,
}

/// What is drawn, as far as texts should not cover it.
#[derive(Default)]
pub struct Drawn {
    areas: Vec<(Area, f64)>,
    lines: Vec<(Point, Point, f64)>,
}

impl Drawn {
    pub fn node(&mut self, place: Point) {
        self.areas.push((Area::square(place, NODE_RADIUS), NODE));
    }

    pub fn sign(&mut self, bow: &Bow) {
        let area = Area::square(bow.sign_place(), SIGN);
        self.areas.push((area, OTHER));
    }

    pub fn bow(&mut self, bow: &Bow) {
        for (from, to) in bow.segments() {
            self.line(from, to);
        }
    }

    pub fn line(&mut self, from: Point, to: Point) {
        self.lines.push((from, to, LINE));
    }

    /// The outlines of a station.
    pub fn hull(&mut self, outlines: &[Vec<Point>]) {
        for (from, to) in outlines.iter().flat_map(|it| sides(it)) {
            self.lines.push((from, to, FRAME));
        }
    }

    pub fn hidden(&self, area: Area) -> f64 {
        let areas = self.areas.iter();
        let areas: f64 = areas.map(|(it, cost)| cost * covered(*it, area)).sum();
        let near = area.grown(OFF_FRAME);
        let lines = self.lines.iter();
        let lines = lines.map(|(from, to, cost)| cost * near.crossed(*from, *to));
        areas + lines.sum::<f64>()
    }
}

/// What two areas share; a little of it counts as much as some more.
fn covered(one: Area, other: Area) -> f64 {
    match one.shared(other) {
        shared if shared > 0.0 => shared + LITTLE,
        _ => 0.0,
    }
}

impl Label {
    pub fn moved(&self, by: Point) -> Label {
        Label {
            area: self.area.moved(by),
            item: self.item.plus(by),
            ..self.clone()
        }
    }

    fn put(&mut self, spot: Spot) {
        self.area = self.area.moved(spot.middle.minus(self.area.middle()));
        self.font.anchor = spot.anchor;
        self.item = spot.item;
    }

    pub fn draw(&self, canvas: &mut Canvas) {
        let address = address(self.of);
        canvas.open(&format!("class=\"label\" data-of=\"{address}\""), &address);
        let nearest = self.area.nearest(self.item);
        if nearest.minus(self.item).length() > NEAR {
            canvas.line(
                nearest,
                self.item,
                "stroke=\"#999999\" stroke-width=\"0.8\"",
            );
        }
        let x = match self.font.anchor {
            "start" => self.area.low.x,
            "end" => self.area.high.x,
            _ => self.area.middle().x,
        };
        for (place, line) in self.lines.iter().enumerate() {
            let y = self.area.low.y + self.font.base(place);
            canvas.text(at(x, y), self.font, line);
        }
        canvas.close();
    }
}

impl Wanted {
    /// The text of an item, with the spots that its size allows.
    pub fn new(texts: &Texts, of: Mark, spots: impl Fn(Point) -> Vec<Spot>) -> Wanted {
        let (width, height) = texts.size(of);
        Wanted {
            spots: spots(at(width, height)),
            label: Label {
                of,
                lines: texts.lines(of),
                font: texts.font(of),
                area: Area::centred(at(0.0, 0.0), width, height),
                item: at(0.0, 0.0),
            },
        }
    }

    /// Only at spots within an outline; where it has its place now is one.
    pub fn within(mut self, outline: &[Point], now: &Label) -> Wanted {
        let size = self.label.area.size();
        self.spots.retain(|spot| {
            let area = Area::centred(spot.middle, size.x, size.y).grown(OFF_FRAME);
            area.corners().iter().all(|&corner| holds(outline, corner))
        });
        if self.spots.is_empty() {
            self.spots.push(Spot {
                middle: now.area.middle(),
                anchor: now.font.anchor,
                item: now.item,
                cost: 0.0,
            });
        }
        self
    }

    /// The text at each of its spots, and what it hides there.
    fn tried(&self, drawn: &Drawn) -> Vec<(f64, Label)> {
        let at = |&spot: &Spot| {
            let mut label = self.label.clone();
            label.put(spot);
            (spot.cost + drawn.hidden(label.area), label)
        };
        self.spots.iter().map(at).collect()
    }
}

/// Puts each text at the spot where it and all others hide least, and says how much they hide.
pub fn placed(wanted: &[Wanted], drawn: &Drawn) -> (Vec<Label>, f64) {
    let tried: Vec<_> = wanted.iter().map(|it| it.tried(drawn)).collect();
    let mut labels: Vec<Option<&Label>> = vec![None; wanted.len()];
    let mut hidden = 0.0;
    for _ in 0..ROUNDS {
        hidden = 0.0;
        for (place, tried) in tried.iter().enumerate() {
            labels[place] = None;
            let cost = |(alone, label): &(f64, Label)| {
                let others = labels.iter().flatten();
                let over = others.map(|it| OTHER * covered(it.area.widened(ACROSS), label.area));
                alone + over.sum::<f64>()
            };
            let costs = tried.iter().map(|it| (cost(it), &it.1));
            let best = costs.min_by(|(one, _), (other, _)| one.total_cmp(other));
            hidden += best.map_or(0.0, |(cost, _)| cost);
            labels[place] = best.map(|(_, label)| label);
        }
    }
    (labels.into_iter().flatten().cloned().collect(), hidden)
}
