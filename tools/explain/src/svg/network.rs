//! The network: its parts beside each other, stations as outlines, arcs by kind, the item of a refusal marked.

use super::area::Area;
use super::bow::{Bow, NODE_RADIUS};
use super::canvas::Canvas;
use super::font::{Font, PLAIN};
use super::look;
use super::pack;
use super::part;
use super::parts::{Part, parts};
use super::piece::{Hull, Piece};
use super::point::{Point, at};
use super::texts::{MARKED, Texts, address};
use crate::explanation::Mark;

/// Room between parts.
const BETWEEN: f64 = 44.0;
/// A part that is wider than the picture is drawn with shorter arcs.
const TIGHT: [f64; 4] = [1.0, 0.85, 0.72, 0.6];
/// So many layouts of a part are drawn, of which the clearest is taken.
const LAYOUTS: usize = 5;

/// A network with a place for everything in it.
pub struct Network<'a> {
    texts: Texts<'a>,
    /// Says what is wrong with the marked item.
    why: &'a str,
    piece: Piece,
}

/// A part with arcs as long as the width allows.
fn fitting(texts: &Texts, part: &Part, most_width: f64) -> Piece {
    let fits = |tight: &&f64| {
        let piece = part::piece(texts, part, **tight, 1);
        piece.area().size().x <= most_width
    };
    let tight = TIGHT.iter().find(fits).or(TIGHT.last());
    part::piece(texts, part, tight.copied().unwrap_or(1.0), LAYOUTS)
}

impl<'a> Network<'a> {
    /// Lays out a network in a picture of the least width, and that is to be so wide at most if that can be.
    pub fn new(texts: Texts<'a>, why: &'a str, least: f64, most: f64) -> Network<'a> {
        let parts = parts(texts.case);
        let pieces = parts.iter().map(|part| fitting(&texts, part, most));
        let pieces: Vec<Piece> = pieces.collect();
        let areas: Vec<Area> = pieces
            .iter()
            .map(|it| it.area().grown(BETWEEN / 2.0))
            .collect();
        let sizes: Vec<Point> = areas.iter().map(|area| area.size()).collect();
        let mut whole = Piece::default();
        let corners = pack::packed(&sizes, least + BETWEEN, most + BETWEEN);
        for ((piece, area), corner) in pieces.iter().zip(&areas).zip(corners) {
            whole.add(piece.moved(corner.minus(area.low)));
        }
        let piece = whole.moved(whole.area().low.times(-1.0));
        Network { texts, why, piece }
    }

    /// Width and height.
    pub fn size(&self) -> Point {
        self.piece.area().size()
    }

    pub fn draw(&self, canvas: &mut Canvas, corner: Point) {
        let piece = self.piece.moved(corner);
        for (station, hull) in &piece.hulls {
            self.station(canvas, *station, hull);
        }
        for (arc, bow) in &piece.bows {
            self.arc(canvas, *arc, bow);
        }
        for (node, place) in &piece.nodes {
            self.node(canvas, *node, *place);
        }
        for label in &piece.labels {
            label.draw(canvas);
        }
    }

    /// Opens a group for an item, marked if it is the refused one.
    fn open(&self, canvas: &mut Canvas, item: Mark) -> bool {
        let marked = self.texts.mark == Some(item);
        let (address, title) = (address(item), self.texts.title(item));
        match marked {
            true => canvas.open(
                &format!("id=\"marked\" class=\"marked\" data-item=\"{address}\""),
                &format!("{title}: {}", self.why),
            ),
            false => canvas.open(&format!("data-item=\"{address}\""), &title),
        }
        marked
    }

    /// Bands of one station run into each other: their edges first, what they enclose after that.
    fn station(&self, canvas: &mut Canvas, station: usize, hull: &Hull) {
        let marked = self.open(canvas, Mark::Station(station));
        let stroke = match marked {
            true => format!("stroke=\"{MARKED}\" stroke-width=\"4\""),
            false => "stroke=\"#b9a77a\" stroke-width=\"1.5\"".to_string(),
        };
        let outline = |points: &Vec<Point>| {
            let points = points.iter().map(|it| format!("{:.1},{:.1}", it.x, it.y));
            format!("M{} Z", points.collect::<Vec<_>>().join(" L"))
        };
        let path = hull.iter().map(outline).collect::<Vec<_>>().join(" ");
        let look = format!("class=\"hull\" d=\"{path}\" fill=\"#fbf6e6\"");
        canvas.element(
            "path",
            &format!("{look} {stroke} stroke-linejoin=\"round\""),
        );
        if hull.len() > 1 {
            canvas.element("path", &format!("d=\"{path}\" fill=\"#fbf6e6\""));
        }
        canvas.close();
    }

    fn arc(&self, canvas: &mut Canvas, index: usize, bow: &Bow) {
        let path = bow.path();
        if self.open(canvas, Mark::Arc(index)) {
            let look = "stroke-width=\"16\" stroke-opacity=\"0.35\" stroke-linecap=\"round\"";
            let line = format!("d=\"{path}\" fill=\"none\" stroke=\"{MARKED}\" {look}");
            canvas.element("path", &line);
        }
        let (colour, width, dashes) = look::stroke(self.texts.case.arcs[index].kind);
        let faint = match self.texts.is_still(index) {
            true => " stroke-opacity=\"0.4\"",
            false => "",
        };
        let dashes = match dashes {
            "" => String::new(),
            dashes => format!(" stroke-dasharray=\"{dashes}\""),
        };
        let look = format!("stroke=\"{colour}\" stroke-width=\"{width}\"{dashes}{faint}");
        canvas.element(
            "path",
            &format!("class=\"bow\" d=\"{path}\" fill=\"none\" {look}"),
        );
        self.sign(canvas, index, bow);
        canvas.close();
    }

    /// The sign of the arc's kind, turned the way that its setting or its gas goes.
    fn sign(&self, canvas: &mut Canvas, index: usize, bow: &Bow) {
        let back = self.texts.goes_back(index);
        let way = bow.along(bow.sign).times(if back { -1.0 } else { 1.0 });
        let angle = way.y.atan2(way.x).to_degrees();
        let Point { x, y } = bow.sign_place();
        let place = format!("transform=\"translate({x:.1},{y:.1}) rotate({angle:.1})\"");
        let faint = match self.texts.is_still(index) {
            true => " opacity=\"0.5\"",
            false => "",
        };
        let kind = self.texts.case.arcs[index].kind;
        let sign = look::sign(kind, self.texts.setting(index).unwrap_or(0));
        canvas.element("path", &format!("{place}{faint} {sign}"));
    }

    fn node(&self, canvas: &mut Canvas, index: usize, place: Point) {
        if self.open(canvas, Mark::Node(index)) {
            let look = format!("fill=\"none\" stroke=\"{MARKED}\" stroke-width=\"5\"");
            canvas.circle(place, NODE_RADIUS + 8.0, &look);
        }
        let (fill, edge) = look::node(self.texts.case.nodes[index].kind);
        let look = format!("class=\"node\" fill=\"{fill}\" stroke=\"{edge}\" stroke-width=\"2\"");
        canvas.circle(place, NODE_RADIUS, &look);
        let font = Font {
            anchor: "middle",
            bold: true,
            ..PLAIN
        };
        canvas.text(place.plus(at(0.0, 4.0)), font, &index.to_string());
        canvas.close();
    }
}
