//! Which leg may follow which, and which may begin or end a route: attachment 5,
//! 1.3 and 1.2, set out as they are printed.

/// The terminators of attachment 5, 1.3, and below them its cells: a row is the
/// leg that stands, a column the leg behind it. `*` is printed there, `&` is the
/// footnote's that names the cell, and of a `.` the copy tells nothing: it has no
/// shading.
const PAIRS: [&str; 24] = [
    "   AF CA CD CF CI CR DF FA FC FD FM HA HF HM IF PI RF TF VA VD VI VM VR",
    "AF  .  .  .  .  .  .  .  .  .  .  .  .  .  .  .  .  .  .  .  .  .  .  .",
    "CA  .  .  .  .  .  .  .  .  .  .  .  .  .  .  .  .  .  .  .  .  .  .  .",
    "CD  .  .  .  .  .  .  .  .  .  .  .  .  .  .  .  .  .  .  .  .  .  .  .",
    "CF  .  .  .  .  .  .  &  .  .  .  .  .  .  .  .  .  .  .  .  .  .  .  .",
    "CI  .  .  .  .  .  .  .  .  .  .  .  .  .  .  .  .  .  .  .  .  .  .  .",
    "CR  .  .  .  .  .  .  .  .  .  .  .  .  .  .  .  .  .  .  .  .  .  .  .",
    "DF  .  .  .  .  .  .  &  .  .  .  .  .  .  .  .  .  .  .  .  .  .  .  .",
    "FA  .  .  .  .  .  .  .  .  .  .  .  .  .  .  .  .  .  .  .  .  .  .  .",
    "FC  .  .  .  .  .  .  &  .  .  .  .  .  .  .  .  .  .  .  .  .  .  .  .",
    "FD  .  .  .  .  .  .  .  .  .  .  .  .  .  .  .  .  .  .  .  .  .  .  .",
    "FM  .  .  .  .  .  .  .  .  .  .  .  .  .  .  .  .  .  .  .  .  .  .  .",
    "HA  .  .  .  .  .  .  .  .  .  .  .  .  .  .  .  .  .  .  .  .  .  .  .",
    "HF  .  .  .  .  .  .  .  .  .  .  .  .  .  .  .  .  .  .  .  .  .  .  .",
    "HM  .  .  .  .  .  .  .  .  .  .  .  .  .  .  .  .  .  .  .  .  .  .  .",
    "IF  .  .  .  .  .  .  .  *  *  *  *  *  *  *  *  *  *  .  .  .  .  .  .",
    "PI  .  .  .  .  .  .  .  .  .  .  .  .  .  .  .  .  .  .  .  .  .  .  .",
    "RF  .  .  .  .  .  .  .  .  .  .  .  .  .  .  .  .  .  .  .  .  .  .  .",
    "TF  .  .  .  .  .  .  .  .  .  .  .  .  .  .  .  .  .  .  .  .  .  .  .",
    "VA  .  .  .  .  .  .  .  .  .  .  .  .  .  .  .  .  .  .  .  .  .  .  .",
    "VD  .  .  .  .  .  .  .  .  .  .  .  .  .  .  .  .  .  .  .  .  .  .  .",
    "VI  .  .  .  .  .  .  .  .  .  .  .  .  .  .  .  .  .  .  .  .  .  .  .",
    "VM  .  .  .  .  .  .  .  .  .  .  .  .  .  .  .  .  .  .  .  .  .  .  .",
    "VR  .  .  .  .  .  .  .  .  .  .  .  .  .  .  .  .  .  .  .  .  .  .  .",
];

/// A row of attachment 5, 1.2: the subsection in column 13 and the route types in
/// column 20, and the legs that may begin and end such a route. The small figures
/// behind some legs are left out: a leg with a footnote is permitted.
pub struct RouteKind {
    pub subsection: &'static str,
    pub route_types: &'static str,
    beginnings: &'static str,
    endings: &'static str,
}

pub const ROUTE_KINDS: [RouteKind; 9] = [
    // SID runway transition
    RouteKind {
        subsection: "D",
        route_types: "0 1 4 F T",
        beginnings: "CA CD CF CI CR DF FA FC FD FM VA VD VI VM VR",
        endings: "AF CF DF FM HA HM TF VM",
    },
    // SID
    RouteKind {
        subsection: "D",
        route_types: "2 5 M",
        beginnings: "CA CD CF CI CR DF FA FC FD FM IF VA VD VI VM VR",
        endings: "AF CF DF HA IF TF",
    },
    // SID enroute transition
    RouteKind {
        subsection: "D",
        route_types: "3 6 S V",
        beginnings: "FA FC FD IF",
        endings: "AF CF DF HA TF",
    },
    // STAR enroute transition
    RouteKind { subsection: "E", route_types: "1 4 7 F", beginnings: "FC FD IF", endings: "AF CF DF HA TF" },
    // STAR
    RouteKind {
        subsection: "E",
        route_types: "2 5 8 M",
        beginnings: "FC FD IF",
        endings: "AF CF DF FM IF TF VM",
    },
    // STAR runway transition
    RouteKind {
        subsection: "E",
        route_types: "3 6 9 S",
        beginnings: "FC FD HF IF",
        endings: "AF CF FM HF HM TF VM",
    },
    // Approach transition
    RouteKind {
        subsection: "F",
        route_types: "A",
        beginnings: "FC FD HF IF PI",
        endings: "AF CF CI HF HM PI TF VI RF",
    },
    // Approach: the route types of section 5.7 that have no row of their own
    RouteKind {
        subsection: "F",
        route_types: "B E F G I J K L M N P R T U V W X Y",
        beginnings: "IF",
        endings: "CF TF",
    },
    // Missed approach
    RouteKind {
        subsection: "F",
        route_types: "Z",
        beginnings: "AF CA CD CF CI CR DF FA FC FD FM HA HM RF VA VD VI VM VR",
        endings: "AF CA CF DF FM HM TF VA VM",
    },
];

/// The places of two rows in the table: an approach ends by its own row or, where
/// it has its missed approach in the same route, by that one's.
const APPROACH: usize = 7;
const MISSED_APPROACH: usize = 8;

/// The terminators in the order of the standard.
pub fn terminators() -> impl Iterator<Item = &'static str> {
    PAIRS[0].split_whitespace()
}

/// Whether a leg may stand behind another: a marked cell permits, and what can't
/// be read is as it was without the table.
pub fn may_follow(before: &str, leg: &str) -> bool {
    mark(before, leg).is_some_and(|mark| mark != '.') || may_follow_without_table(before, leg)
}

/// What stands in the cell of two terminators: in the row that begins with the
/// one, below the other in the first row.
fn mark(before: &str, leg: &str) -> Option<char> {
    let row = PAIRS[1..].iter().find(|row| row.starts_with(before))?;
    let column = PAIRS[0].find(leg)?;
    row[column..].chars().nth(1)
}

/// Legs that want a fix before them, and legs that end at a fix.
const AFTER_A_FIX: &str = "TF RF HA HF HM PI FA FC FD FM";
const AT_A_FIX: &str = "IF TF CF DF AF RF HA HF HM";

/// The rule of paper 01, which decides where the table can't be read.
pub fn may_follow_without_table(before: &str, leg: &str) -> bool {
    leg != "IF" && (!among(AFTER_A_FIX, leg) || among(AT_A_FIX, before))
}

/// The row of a route's subsection and type, by its place in the table.
pub fn kind_of(subsection: &str, route_type: &str) -> Option<usize> {
    let has = |kind: &RouteKind| kind.subsection == subsection && among(kind.route_types, route_type);
    ROUTE_KINDS.iter().position(has)
}

pub fn may_begin(kind: usize, leg: &str) -> bool {
    among(ROUTE_KINDS[kind].beginnings, leg)
}

pub fn may_end(kind: usize, leg: &str) -> bool {
    among(ROUTE_KINDS[kind].endings, leg)
        || kind == APPROACH && among(ROUTE_KINDS[MISSED_APPROACH].endings, leg)
}

fn among(names: &str, name: &str) -> bool {
    names.split(' ').any(|other| other == name)
}
