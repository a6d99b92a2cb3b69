//! The parts of a drawn network: items that hang together by arcs or by a station.

use gasplan_text::model::Case;

use super::samples::Sample;
use super::shapes::{Area, Point};

/// The lowest node of what hangs together with each node, by arcs or by a station.
fn lowest(case: &Case) -> Vec<usize> {
    let mut lowest: Vec<usize> = (0..case.nodes.len()).collect();
    let arcs = case.arcs.iter().map(|arc| vec![arc.from, arc.to]);
    let stations = (0..case.stations.len()).map(|it| case.station_nodes(it));
    let joins: Vec<Vec<usize>> = arcs.chain(stations).collect();
    for _ in 0..case.nodes.len() {
        for join in &joins {
            let least = join.iter().map(|&node| lowest[node]).min();
            join.iter()
                .for_each(|&node| lowest[node] = least.unwrap_or(node));
        }
    }
    lowest
}

/// Parts by their lowest nodes, each with the rectangle that it takes. A station without nodes is a part.
pub fn parts(sample: &Sample) -> Vec<(usize, Area)> {
    let points = points(sample);
    let mut names: Vec<usize> = points.iter().map(|(part, _)| *part).collect();
    names.sort();
    names.dedup();
    let own = |name: usize| points.iter().filter(move |(part, _)| *part == name);
    let area = |name: usize| Area::around(own(name).flat_map(|(_, it)| it.iter().copied()));
    names.into_iter().map(|name| (name, area(name))).collect()
}

/// The points of everything that is drawn of the network, with the part that it belongs to.
fn points(sample: &Sample) -> Vec<(usize, Vec<Point>)> {
    let (case, drawing) = (&sample.case, &sample.drawing);
    let lowest = lowest(case);
    let of_arc = |arc: usize| lowest[case.arcs[arc].from];
    let of_station = |station: usize| match case.station_nodes(station).first() {
        Some(&node) => lowest[node],
        None => case.nodes.len() + station,
    };
    let of_item = |item: &str| {
        let (kind, number) = item.split_once(' ').expect("an item");
        let number: usize = number.parse().expect("a number");
        match kind {
            "node" => lowest[number],
            "arc" => of_arc(number),
            _ => of_station(number),
        }
    };
    let nodes = drawing.nodes().into_iter();
    let nodes = nodes.map(|(node, (x, y), radius)| {
        let corners = vec![(x - radius, y - radius), (x + radius, y + radius)];
        (lowest[node], corners)
    });
    let bows = drawing.bows().into_iter();
    let bows = bows.map(|(arc, line)| (of_arc(arc), line));
    let hulls = drawing.hulls().into_iter();
    let hulls = hulls.map(|(station, hull)| (of_station(station), hull.concat()));
    let labels = drawing.labels().into_iter();
    let labels = labels.map(|(item, text)| (of_item(item), text.text_area().corners()));
    nodes.chain(bows).chain(hulls).chain(labels).collect()
}
