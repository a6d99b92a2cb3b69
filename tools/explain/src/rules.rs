//! Every refusal number in words.

pub struct Rule {
    pub number: i64,
    /// What the rule is about.
    pub title: &'static str,
    /// The question whose answer is "no".
    pub question: &'static str,
}

const fn rule(number: i64, title: &'static str, question: &'static str) -> Rule {
    Rule {
        number,
        title,
        question,
    }
}

pub const RULES: [Rule; 34] = [
    rule(
        1,
        "case bytes end early",
        "is there a byte for the rest of the number?",
    ),
    rule(
        2,
        "case byte out of place",
        "is a tenth byte 00 or 01, and a last byte after the first not 00?",
    ),
    rule(
        3,
        "too many case numbers",
        "is a place free in the list for the number?",
    ),
    rule(
        4,
        "bytes do not fit",
        "do all bytes of the list fit into the room?",
    ),
    rule(
        5,
        "plan bytes end early",
        "is there a byte for the rest of the number?",
    ),
    rule(
        6,
        "plan byte out of place",
        "is a tenth byte 00 or 01, and a last byte after the first not 00?",
    ),
    rule(
        7,
        "too many plan numbers",
        "is a place free in the list for the number?",
    ),
    rule(10, "case field missing", "is the field there?"),
    rule(11, "case field out of range", "is the field in its range?"),
    rule(
        12,
        "case numbers left over",
        "is nothing left over after the last field?",
    ),
    rule(13, "arc from a node to itself", "do the arc's ends differ?"),
    rule(
        14,
        "node in two stations",
        "is the node in at most one station?",
    ),
    rule(
        15,
        "station with too many arcs",
        "has the station at most 30 artificial arcs?",
    ),
    rule(
        16,
        "entry and exit of a direction",
        "do entry and exit share no node and hold only fence nodes of the station?",
    ),
    rule(
        17,
        "states and machines of a station",
        "do on and off share nothing and name only the station's arcs, do its arcs' machine sets name only its machines, \
         and does the activity at step 0 obey the state at step 0?",
    ),
    rule(
        20,
        "head or length of the plan",
        "are the first two numbers 1 and k, and is the length 2 + k × (6N + 4A + 2S)?",
    ),
    rule(
        21,
        "a node's numbers",
        "are p, d and the slacks in their ranges, and d and the slacks 0 at an inner node?",
    ),
    rule(22, "demand", "is d + s+ - s- the demand?"),
    rule(
        23,
        "pressure where there is demand",
        "is p + u+ ≥ actlow and p - u- ≤ acthigh?",
    ),
    rule(
        24,
        "an arc's numbers",
        "are flows within qmax, unused numbers 0, the setting known and not backward on a one-way arc, and the machines in the arc's set?",
    ),
    rule(
        25,
        "flow against the setting",
        "is there no flow on a shut or off arc, and none against an artificial arc's setting?",
    ),
    rule(
        26,
        "pressures at an arc's ends",
        "do the pressures fit what the arc does: equal, falling, or raised no more than its machines and its out bound allow?",
    ),
    rule(
        27,
        "machines of an arc",
        "are there machines only where the arc compresses, at most its most machines, and is the flow within the sum of their Q?",
    ),
    rule(
        28,
        "gas stored in a pipe",
        "is |dt × (a - b) - c × (change of p at from + change at to)| at most the mass tolerance?",
    ),
    rule(
        29,
        "friction and slope of a pipe",
        "is |1,000,000 × (to - from) + f × a + g × b + h × (from + to)| at most 1,000,000 × the pressure tolerance?",
    ),
    rule(
        30,
        "direction and state of a station",
        "are both in range, does the state support the direction, are its on arcs active and its off arcs not?",
    ),
    rule(
        31,
        "one machine, one arc",
        "is each machine on at most one arc?",
    ),
    rule(
        32,
        "flow at the station's fence",
        "does gas go in at entry nodes, out at exit nodes, and neither at other fence nodes?",
    ),
    rule(
        33,
        "balance of a node",
        "is dt × |flow out - flow in - d| at most the mass tolerance?",
    ),
    rule(40, "ledger set", "does the set name only nodes?"),
    rule(41, "ledger steps", "is 0 ≤ s ≤ t ≤ k?"),
    rule(
        60,
        "records and agreed figure",
        "are the rows whole and at most 5,000, and is the agreed figure 0 to 10^12?",
    ),
    rule(
        61,
        "times of a record",
        "do times rise strictly, from 0 or more?",
    ),
    rule(62, "masses of a record", "is each mass 0 to 10^12?"),
];

pub fn rule_of(number: i64) -> Option<&'static Rule> {
    RULES.iter().find(|rule| rule.number == number)
}
