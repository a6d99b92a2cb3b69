//! How nodes and arcs look, by their kind.

use gasplan_text::model::{COMBINED, COMPRESSOR, INNER, REGULATING, SOURCE};
use gasplan_text::model::{REGULATOR, SHORTCUT, VALVE};

/// Colour, width and dashes of an arc's line.
pub fn stroke(kind: i64) -> (&'static str, f64, &'static str) {
    match kind {
        VALVE => ("#666666", 2.5, ""),
        REGULATOR => ("#8a6d00", 2.5, ""),
        SHORTCUT => ("#2e8b57", 2.5, "8 5"),
        REGULATING => ("#d07000", 2.5, ""),
        COMPRESSOR => ("#7b3fa0", 2.5, ""),
        COMBINED => ("#b0307a", 2.5, ""),
        _ => ("#1f6fb2", 4.0, ""),
    }
}

/// Fill and edge of a node.
pub fn node(kind: i64) -> (&'static str, &'static str) {
    match kind {
        INNER => ("#ffffff", "#444444"),
        SOURCE => ("#bfe3c0", "#2c7a2f"),
        _ => ("#f6cfae", "#a8560f"),
    }
}

/// The sign of an arc, around the origin and pointing right. One of a combined arc goes by its setting.
pub fn sign(kind: i64, setting: i64) -> String {
    let (colour, ..) = stroke(kind);
    let bow_tie = "M-10,-7 L10,7 L10,-7 L-10,7 Z";
    let triangle = "M-6,-6 L8,0 L-6,6 Z";
    let ring = "M11,0 A11,11 0 1 1 -11,0 A11,11 0 1 1 11,0 Z";
    let square = "M-11,-11 H11 V11 H-11 Z";
    // Says which way an arc regulates.
    let tip = "M13,-5 L19,0 L13,5";
    let path = match (kind, setting) {
        (VALVE, _) => bow_tie.to_string(),
        (REGULATOR, _) => format!("{bow_tie} M0,0 V-10 M-6,-10 H6"),
        (REGULATING | COMBINED, 1 | 2) => format!("{square} {bow_tie} {tip}"),
        (REGULATING, _) => format!("{square} {bow_tie}"),
        (COMPRESSOR, _) => format!("{ring} {triangle}"),
        (COMBINED, _) => format!("{square} {triangle}"),
        _ => "M-6,-6 L7,0 L-6,6 Z".to_string(),
    };
    let fill = match kind {
        VALVE | REGULATOR | REGULATING | COMPRESSOR | COMBINED => "#ffffff",
        _ => colour,
    };
    format!("d=\"{path}\" fill=\"{fill}\" stroke=\"{colour}\" stroke-width=\"1.8\"")
}
