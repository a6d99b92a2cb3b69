//! A station with its nodes, or a node alone, as a piece of the picture.

use super::area::Area;
use super::bow::{Bow, NODE_RADIUS};
use super::fan::{bows, is_crowded, put_signs};
use super::labels::{Drawn, Label, Wanted, placed};
use super::parts::Body;
use super::piece::{Hull, Piece};
use super::point::Point;
use super::polygon::{hull, ring};
use super::spots;
use super::texts::Texts;
use crate::explanation::Mark;

/// Room between what is in a station and its outline.
const MARGIN: f64 = 14.0;
/// The same for a station that is drawn as bands along its arcs.
const BAND: f64 = 8.0;
/// Arcs to other bodies are reckoned with so far.
const RAY: f64 = 130.0;

/// The items of a body at their places, with texts and outlines.
pub fn piece(texts: &Texts, places: &[Point], body: &Body) -> Piece {
    let nodes = body.nodes.iter().map(|&node| (node, places[node]));
    let mut piece = Piece {
        nodes: nodes.collect(),
        ..Piece::default()
    };
    let mut drawn = piece.drawn();
    rays(texts, places, body, &mut drawn);
    piece.bows = bows(texts, places, &body.arcs, &body.nodes, &[]);
    put_signs(texts.case, &mut piece.bows, &mut drawn);
    // Stations that share nodes cannot each have an outline around all that is theirs and nothing else.
    let shared = body.stations.len() > 1;
    for &station in body.stations.iter().filter(|_| shared) {
        let bands = bands(texts, &piece, station);
        drawn.hull(&bands);
        piece.hulls.push((station, bands));
    }
    let mut wanted = wanted(texts, &piece.nodes, &piece.bows);
    wanted.extend(band_headers(texts, &piece));
    (piece.labels, _) = placed(&wanted, &drawn);
    for &station in body.stations.iter().filter(|_| !shared) {
        let header = header(texts, station, piece.area());
        piece.labels.extend(placed(&[header], &drawn).0);
        let outline = around(&piece);
        piece.hulls.push((station, vec![outline]));
    }
    piece
}

/// Lines towards the nodes of other bodies.
fn rays(texts: &Texts, places: &[Point], body: &Body, drawn: &mut Drawn) {
    let holds = |node| body.nodes.contains(&node);
    for arc in &texts.case.arcs {
        let (inner, outer) = match (holds(arc.from), holds(arc.to)) {
            (true, false) => (arc.from, arc.to),
            (false, true) => (arc.to, arc.from),
            _ => continue,
        };
        let way = places[outer].minus(places[inner]).unit();
        drawn.line(places[inner], places[inner].plus(way.times(RAY)));
    }
}

/// The texts at nodes and arcs.
pub fn wanted(texts: &Texts, nodes: &[(usize, Point)], bows: &[(usize, Bow)]) -> Vec<Wanted> {
    let mut wanted = Vec::new();
    for &(node, place) in nodes {
        let of = Mark::Node(node);
        if !texts.lines(of).is_empty() {
            let spots = |size| spots::around_node(place, size);
            wanted.push(Wanted::new(texts, of, spots));
        }
    }
    for (arc, bow) in bows {
        let spots = |size| match is_crowded(texts.case, *arc) {
            true => spots::on_bow(bow, size),
            false => spots::along_bow(bow, size),
        };
        wanted.push(Wanted::new(texts, Mark::Arc(*arc), spots));
    }
    wanted
}

/// The text of a station, above or below an area.
fn header(texts: &Texts, station: usize, area: Area) -> Wanted {
    let spots = |size| spots::at_edge(area, size);
    Wanted::new(texts, Mark::Station(station), spots)
}

/// The texts of stations that are drawn as bands, above or below these.
fn band_headers(texts: &Texts, piece: &Piece) -> Vec<Wanted> {
    let hulls = piece.hulls.iter();
    let header = |(station, bands): &(usize, Hull)| {
        let area = Area::around(bands.concat());
        header(texts, *station, area)
    };
    hulls.map(header).collect()
}

/// The outline around everything in a piece.
fn around(piece: &Piece) -> Vec<Point> {
    let mut points = Vec::new();
    for (_, place) in &piece.nodes {
        points.extend(ring(*place, NODE_RADIUS + MARGIN));
    }
    for (_, bow) in &piece.bows {
        points.extend(bow.points().flat_map(|it| ring(it, MARGIN)));
    }
    for label in &piece.labels {
        let corners = label.area.corners().into_iter();
        points.extend(corners.flat_map(|it| ring(it, MARGIN / 2.0)));
    }
    hull(points)
}

/// A band along each arc of a station.
fn bands(texts: &Texts, piece: &Piece, station: usize) -> Hull {
    let own = texts.case.station_arcs(station);
    let bows = piece.bows.iter().filter(|(arc, _)| own.contains(arc));
    let mut bands = Vec::new();
    for (index, bow) in bows {
        let arc = &texts.case.arcs[*index];
        let ends = piece.nodes.iter();
        let ends = ends.filter(|(node, _)| *node == arc.from || *node == arc.to);
        let rings = ends.flat_map(|(_, place)| ring(*place, NODE_RADIUS + BAND));
        let line = bow.points().flat_map(|it| ring(it, BAND));
        bands.push(hull(rings.chain(line).collect()));
    }
    bands
}

/// The texts of a body that has its place among others: those in a station stay within its outline.
pub fn wanted_again(texts: &Texts, piece: &Piece) -> Vec<Wanted> {
    let mut wanted = wanted(texts, &piece.nodes, &piece.bows);
    let [(station, outlines)] = &piece.hulls[..] else {
        wanted.extend(band_headers(texts, piece));
        return wanted;
    };
    let header = Mark::Station(*station);
    for label in piece.labels.iter().filter(|label| label.of == header) {
        let now = label.area.middle();
        wanted.push(Wanted::new(texts, header, |_| spots::in_row(now)));
    }
    let pairs = wanted.into_iter().zip(&piece.labels);
    let within = |(wanted, now): (Wanted, &Label)| wanted.within(&outlines[0], now);
    pairs.map(within).collect()
}
