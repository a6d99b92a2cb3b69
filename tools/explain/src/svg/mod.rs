//! One self-contained picture: the verdict, the network, and the region balance.

mod apart;
mod area;
mod axis;
mod body;
mod bow;
mod canvas;
mod chart;
mod fan;
mod font;
mod labels;
mod layout;
mod legend;
mod look;
mod network;
mod pack;
mod part;
mod parts;
mod piece;
mod point;
mod polygon;
mod spots;
mod stress;
mod texts;
mod turning;

use gasplan_text::model::{Case, Plan};

use crate::balance::Balance;
use crate::explanation::Mark;
use canvas::Canvas;
use chart::Chart;
use font::{Font, PLAIN};
use network::Network;
use point::at;
use texts::{MARKED, Texts};

const MOST_WIDTH: f64 = 1_500.0;
const LEAST_WIDTH: f64 = 860.0;
/// Room beside the network, and beside texts and charts.
const EDGE: f64 = 30.0;
const LEFT: f64 = 20.0;
/// Room above and below the network.
const ABOVE: f64 = 20.0;
const LINE: f64 = 18.0;
/// The most nodes, arcs and stations of a case.
const MOST: [usize; 3] = [60, 120, 8];
const VERDICT: Font = Font {
    size: 20,
    bold: true,
    ..PLAIN
};
const NOT_PROVED: &str = "The verdict is the proved library's. This picture is not proved.";

/// What a picture shows. Without a case there is only the verdict.
pub struct Subject<'a> {
    pub verdict: String,
    /// What is said below the verdict.
    pub words: Vec<String>,
    pub case: Option<&'a Case>,
    /// The plan, and the step whose numbers are shown.
    pub plan: Option<(&'a Plan<'a>, usize)>,
    pub mark: Option<Mark>,
    pub balance: Option<&'a Balance>,
}

pub fn picture(subject: &Subject) -> String {
    let mut canvas = Canvas::default();
    let least = VERDICT.width(&subject.verdict) + 2.0 * LEFT;
    let least = least.max(LEAST_WIDTH);
    let Some(case) = subject.case.filter(|case| can_be_drawn(case)) else {
        let height = caption(&mut canvas, subject, least);
        return canvas.finish(least, height + 20.0, &subject.verdict);
    };
    let texts = Texts {
        case,
        plan: subject.plan,
        mark: subject.mark,
    };
    let [least_network, most] = [least, MOST_WIDTH].map(|it| it - 2.0 * EDGE);
    let network = Network::new(texts, &subject.verdict, least_network, most);
    let size = network.size();
    let width = (size.x + 2.0 * EDGE).max(least);
    let top = caption(&mut canvas, subject, width) + ABOVE;
    network.draw(&mut canvas, at((width - size.x) / 2.0, top));
    let mut bottom = top + size.y + ABOVE;
    let corner = at(EDGE, bottom);
    bottom += legend::draw(&mut canvas, case, corner, width - 2.0 * EDGE) + ABOVE;
    if let Some(balance) = subject.balance {
        let chart = Chart {
            case,
            at: at(LEFT, bottom),
            width: width - 3.0 * LEFT,
        };
        bottom += chart.draw(&mut canvas, balance);
    }
    canvas.finish(width, bottom + 10.0, &subject.verdict)
}

/// A file that is too long is not judged, and may have more of everything than a case has.
fn can_be_drawn(case: &Case) -> bool {
    let counts = [case.nodes.len(), case.arcs.len(), case.stations.len()];
    counts.iter().zip(MOST).all(|(count, most)| *count <= most)
}

/// The verdict, the words, and that the picture is not proved; gives the height taken.
fn caption(canvas: &mut Canvas, subject: &Subject, width: f64) -> f64 {
    let accepted = subject.verdict.starts_with("accepted");
    let font = Font {
        fill: if accepted { "#2c7a2f" } else { MARKED },
        ..VERDICT
    };
    let mut place = at(LEFT, 32.0);
    canvas.text(place, font, &subject.verdict);
    let font = Font { size: 13, ..PLAIN };
    let wrapped = |words: &String| font.wrapped(words, width - 2.0 * LEFT);
    for line in subject.words.iter().flat_map(wrapped) {
        place.y += LINE;
        canvas.text(place, font, &line);
    }
    place.y += LINE;
    let faint = Font {
        size: 11,
        fill: "#777",
        ..PLAIN
    };
    canvas.text(place, faint, NOT_PROVED);
    place.y + 10.0
}
