//! A part of the network as a piece of the picture: its bodies apart from each other, and the arcs between them.

use super::apart;
use super::body;
use super::bow::Bow;
use super::fan::{Block, bows, put_signs};
use super::labels::{Wanted, placed};
use super::layout;
use super::parts::Part;
use super::piece::Piece;
use super::point::Point;
use super::stress::Ways;
use super::texts::Texts;

/// So much that texts hide, or so many square pixels, are as bad as one arc across another.
const TEXT: f64 = 60.0;
const AREA: f64 = 60_000.0;
/// What a layout costs for each one that comes before it.
const LATER: f64 = 0.2;

/// The part with arcs as long as their texts need, times a share; of so many layouts the clearest.
pub fn piece(texts: &Texts, part: &Part, tight: f64, layouts: usize) -> Piece {
    let ways = layout::ways(texts, tight);
    let best = layout::places(texts.case, part, &ways).into_iter();
    let tried = best.take(layouts).enumerate().map(|(order, places)| {
        let (piece, hidden) = laid_out(texts, part, places, &ways);
        let size = piece.area().size();
        let clutter = piece.crossings() as f64 + hidden / TEXT;
        let cost = clutter + size.x * size.y / AREA + LATER * order as f64;
        (cost, piece)
    });
    let best = tried.min_by(|(one, _), (other, _)| one.total_cmp(other));
    best.map_or(Piece::default(), |(_, piece)| piece)
}

/// The part with its nodes about these places, and what its texts hide.
fn laid_out(texts: &Texts, part: &Part, mut places: Vec<Point>, ways: &Ways) -> (Piece, f64) {
    let bodies = part.bodies.iter();
    let bodies: Vec<Piece> = bodies.map(|it| body::piece(texts, &places, it)).collect();
    let moves = apart::moves(part, &bodies, &places, ways);
    let moved = bodies.iter().zip(moves).map(|(piece, by)| piece.moved(by));
    let moved: Vec<Piece> = moved.collect();
    let mut blocks = Vec::new();
    for (piece, own) in moved.iter().zip(&part.bodies) {
        let nodes = piece.nodes.iter();
        nodes.for_each(|(node, place)| places[*node] = *place);
        if !own.stations.is_empty() {
            blocks.push(Block {
                outline: piece.outline(0.0),
                nodes: own.nodes.clone(),
            });
        }
    }
    let between = bows(texts, &places, &part.arcs, &part.nodes(), &blocks);
    joined(texts, moved, between)
}

/// Bodies and the arcs between them in one piece, with texts where they hide least of it all.
fn joined(texts: &Texts, bodies: Vec<Piece>, mut between: Vec<(usize, Bow)>) -> (Piece, f64) {
    let again = bodies.iter().flat_map(|it| body::wanted_again(texts, it));
    let mut wanted: Vec<Wanted> = again.collect();
    let mut whole = Piece::default();
    bodies.into_iter().for_each(|body| whole.add(body));
    let mut drawn = whole.drawn();
    put_signs(texts.case, &mut between, &mut drawn);
    wanted.extend(body::wanted(texts, &[], &between));
    whole.bows.extend(between);
    let (labels, hidden) = placed(&wanted, &drawn);
    whole.labels = labels;
    (whole, hidden)
}
