//! Pictures of the examples and of generated networks.

use std::sync::OnceLock;

use explain::Input;
use explain::answer::answer;
use explain::change::apply;
use explain::request::Request;
use gasplan::read_all;
use gasplan_text::model::Case;
use inputs::bytes::encode;
use inputs::generate::{Size, accepted, at_the_ends, of_size};
use inputs::{Pair, Rng};

use super::Drawing;
use crate::common::{EXAMPLES, example, words};

/// A picture and what it shows.
pub struct Sample {
    pub name: String,
    pub drawing: Drawing,
    pub case: Case,
    pub case_list: Vec<i64>,
    pub plan: Vec<i64>,
}

impl Sample {
    /// The picture of an example, with changes as they are typed.
    pub fn of_example(command: &str) -> Sample {
        let folder = words(command)[0].clone();
        Sample::new(command, example(&folder))
    }

    pub fn of_pair(name: &str, pair: &Pair) -> Sample {
        let input = Input {
            case_bytes: encode(&pair.case.list()).bytes,
            plan_bytes: encode(&pair.plan.list()).bytes,
        };
        Sample::new(name, input)
    }

    fn new(command: &str, mut input: Input) -> Sample {
        let request = Request::of(&words(&format!("{command} --svg picture.svg"))).unwrap();
        apply(&mut input, &request.changes).unwrap();
        let picture = answer(&input, &request).picture.unwrap();
        let case_list = read_all(&input.case_bytes).unwrap();
        Sample {
            name: command.to_string(),
            drawing: Drawing::of(&picture),
            case: Case::of(&case_list).unwrap(),
            case_list,
            plan: read_all(&input.plan_bytes).unwrap(),
        }
    }
}

/// Nodes, arcs, stations and steps of generated networks, small to largest.
const SIZES: [[usize; 4]; 8] = [
    [1, 0, 0, 1],
    [3, 4, 1, 2],
    [8, 14, 3, 30],
    [12, 18, 2, 12],
    [20, 30, 2, 8],
    [36, 50, 4, 24],
    [60, 80, 6, 24],
    [60, 120, 8, 48],
];

/// The examples, and networks of many sizes.
pub fn samples() -> &'static [Sample] {
    static SAMPLES: OnceLock<Vec<Sample>> = OnceLock::new();
    SAMPLES.get_or_init(|| {
        let mut samples: Vec<Sample> = EXAMPLES.map(Sample::of_example).into();
        for (seed, [nodes, arcs, stations, steps]) in (1..).zip(SIZES) {
            let size = Size {
                nodes,
                arcs,
                stations,
                steps,
            };
            let pair = of_size(&mut Rng::new(seed), size);
            samples.push(Sample::of_pair(
                &format!("{nodes}-nodes-{arcs}-arcs"),
                &pair,
            ));
        }
        for seed in 0..12 {
            let pair = accepted(&mut Rng::new(seed));
            samples.push(Sample::of_pair(&format!("any-{seed}"), &pair));
        }
        for seed in 0..4 {
            let pair = at_the_ends(&mut Rng::new(seed));
            samples.push(Sample::of_pair(&format!("ends-{seed}"), &pair));
        }
        samples
    })
}
