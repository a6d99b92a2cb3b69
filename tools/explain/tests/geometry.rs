//! What is drawn lies where it should: stations around their own nodes alone, parts apart, texts clear of frames and nodes.

mod common;
mod drawing;

use drawing::parts::parts;
use drawing::samples::{Sample, samples};
use drawing::shapes::{Area, Outline, edge_distance, holds};
use gasplan_text::model::{COMBINED, Plan};
use inputs::Rng;
use inputs::generate::{Size, of_size};
use inputs::model::{Station, StationRow};

/// Every node is wholly within the outlines of its stations, and wholly outside all others.
fn check_stations(sample: &Sample) {
    let nodes = sample.drawing.nodes();
    let hulls = sample.drawing.hulls();
    assert_eq!(nodes.len(), sample.case.nodes.len(), "{}", sample.name);
    assert_eq!(hulls.len(), sample.case.stations.len(), "{}", sample.name);
    for (station, outlines) in &hulls {
        let own = sample.case.station_nodes(*station);
        for (node, middle, radius) in &nodes {
            let within = |it: &Outline| holds(it, *middle) && edge_distance(it, *middle) > *radius;
            let touched = |it: &Outline| holds(it, *middle) || edge_distance(it, *middle) < *radius;
            let what = format!("{}: node {node}, station {station}", sample.name);
            match own.contains(node) {
                true => assert!(outlines.iter().any(within), "{what} is outside"),
                false => assert!(!outlines.iter().any(touched), "{what} is foreign"),
            }
        }
    }
}

#[test]
fn a_station_s_outline_has_its_nodes_in_it_and_no_others() {
    let stations = samples().iter().map(|it| it.case.stations.len());
    assert!(stations.sum::<usize>() > 30);
    samples().iter().for_each(check_stations);
}

/// The station's own text, and those of its nodes and arcs.
fn station_items(sample: &Sample, station: usize) -> Vec<String> {
    let nodes = sample.case.station_nodes(station).into_iter();
    let arcs = sample.case.station_arcs(station).into_iter();
    let nodes = nodes.map(|node| format!("node {node}"));
    let arcs = arcs.map(|arc| format!("arc {arc}"));
    let own = [format!("station {station}")];
    nodes.chain(arcs).chain(own).collect()
}

#[test]
fn what_belongs_to_a_station_is_written_within_its_outline() {
    for sample in samples() {
        let labels = sample.drawing.labels();
        for (station, outlines) in sample.drawing.hulls() {
            let items = station_items(sample, station);
            let own = labels
                .iter()
                .filter(|(of, _)| items.iter().any(|it| it == of));
            let mut count = 0;
            for (item, text) in own {
                let corners = text.text_area().corners();
                let inside = corners.iter().all(|&corner| holds(&outlines[0], corner));
                assert!(inside, "{}: {item}, {}", sample.name, text.text);
                count += 1;
            }
            assert!(count > sample.case.station_arcs(station).len());
        }
    }
}

#[test]
fn stations_that_share_a_node_keep_others_out_too() {
    let sample = Sample::of_example("day --change case 'arc 3 station' 1");
    let [one, other] = [0, 1].map(|station| sample.case.station_nodes(station));
    assert!(one.iter().any(|node| other.contains(node)));
    check_stations(&sample);
    check_frames(&sample);
}

#[test]
fn a_station_without_arcs_is_drawn_alone() {
    let size = Size {
        nodes: 12,
        arcs: 18,
        stations: 1,
        steps: 2,
    };
    let mut pair = of_size(&mut Rng::new(3), size);
    pair.case.stations.push(Station {
        directions: vec![[0, 0, 0]],
        states: vec![[1, 0, 0, 0]],
        ..Station::default()
    });
    for step in &mut pair.plan.steps {
        step.stations.push(StationRow::default());
    }
    let sample = Sample::of_pair("without-arcs", &pair);
    let added = pair.case.stations.len() - 1;
    assert!(sample.case.station_arcs(added).is_empty());
    let label = sample.drawing.label(&format!("station {added}"));
    assert_eq!(label, format!("station {added}: direction 0, state 0"));
    check_stations(&sample);
    check_parts(&sample);
}

/// No text lies over the frame of a panel or the outline of a station.
fn check_frames(sample: &Sample) {
    let frames = sample.drawing.frames();
    for text in sample.drawing.all("text", "") {
        let area = text.text_area();
        let met = frames.iter().find(|&&line| area.meets(line));
        assert!(met.is_none(), "{}: {} over {met:?}", sample.name, text.text);
    }
}

#[test]
fn no_text_lies_over_a_frame() {
    samples().iter().for_each(check_frames);
}

#[test]
fn everything_is_within_the_picture() {
    for sample in samples() {
        let picture = sample.drawing.all("svg", "").next().expect("a picture");
        let whole = Area {
            low: (0.0, 0.0),
            high: (picture.number("width"), picture.number("height")),
        };
        for text in sample.drawing.all("text", "") {
            let corners = text.text_area().corners();
            let inside = corners.iter().all(|&corner| whole.holds(corner));
            assert!(inside, "{}: {}", sample.name, text.text);
        }
        for (part, area) in parts(sample) {
            let inside = area.corners().iter().all(|&corner| whole.holds(corner));
            assert!(inside, "{}: part {part}", sample.name);
        }
    }
}

#[test]
fn texts_of_items_are_clear_of_nodes_and_of_each_other() {
    for sample in samples() {
        let labels = sample.drawing.labels();
        for (place, (item, text)) in labels.iter().enumerate() {
            let area = text.text_area();
            for (node, middle, radius) in sample.drawing.nodes() {
                let clear = area.distance(middle) > radius;
                assert!(clear, "{}: {item} over node {node}", sample.name);
            }
            for (other, lines) in &labels[..place] {
                let clear = item == other || !area.overlaps(&lines.text_area());
                assert!(clear, "{}: {item} over {other}", sample.name);
            }
        }
    }
}

fn check_parts(sample: &Sample) {
    let parts = parts(sample);
    for (place, (one, area)) in parts.iter().enumerate() {
        for (other, other_area) in &parts[..place] {
            let apart = !area.overlaps(other_area);
            assert!(apart, "{}: parts {one} and {other}", sample.name);
        }
    }
}

#[test]
fn parts_lie_beside_each_other() {
    let several = samples().iter().filter(|it| parts(it).len() > 1);
    assert!(several.count() > 10);
    samples().iter().for_each(check_parts);
}

#[test]
fn parts_use_the_space() {
    for sample in samples() {
        let parts = parts(sample);
        let size = |area: &Area| (area.high.0 - area.low.0) * (area.high.1 - area.low.1);
        let whole = Area::around(parts.iter().flat_map(|(_, area)| area.corners()));
        let taken: f64 = parts.iter().map(|(_, area)| size(area)).sum();
        println!(
            "{} {} {:.2}",
            sample.name,
            parts.len(),
            taken / size(&whole)
        );
    }
}

/// What a combined arc does under each setting from 1 on.
const COMBINED_WORDS: [&str; 4] = [
    "regulating forward",
    "regulating backward",
    "compressing forward",
    "compressing backward",
];

#[test]
fn a_combined_arc_says_what_it_does() {
    let mut seen = [0; 5];
    for sample in samples() {
        let plan = Plan::new(&sample.case, &sample.plan);
        let step = sample.case.steps();
        let combined = |arc: &usize| sample.case.arcs[*arc].kind == COMBINED;
        for arc in (0..sample.case.arcs.len()).filter(combined) {
            let now = plan.arc(step, arc).setting;
            seen[now as usize] += 1;
            let label = sample.drawing.label(&format!("arc {arc}"));
            for (setting, words) in (1..).zip(COMBINED_WORDS) {
                let said = label.contains(words);
                assert_eq!(said, setting == now, "{}: {label}", sample.name);
            }
        }
    }
    assert!(seen.iter().all(|&count| count > 0), "{seen:?}");
}
