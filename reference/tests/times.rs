//! The inputs whose cost is measured are legal, are accepted, and have the sizes that are said.

use reference::answers::Inputs;
use reference::pick::{check_log, new_file, pick};
use reference::picks::timed;
use reference::times::{inputs, sizes, Sizes};
use reference::wanted::numbers;

/// Frozen records, D lines, A lines and corrections, by kind and part.
const SAID: [(&str, [usize; 4]); 6] = [
    ("D alone, all", [480, 436, 0, 200]),
    ("D and A, all", [260, 215, 215, 200]),
    ("D alone, half", [240, 218, 0, 100]),
    ("D and A, half", [130, 108, 108, 100]),
    ("D alone, quarter", [120, 109, 0, 50]),
    ("D and A, quarter", [65, 54, 54, 50]),
];

#[test]
fn they_are_accepted_and_have_their_sizes() {
    let timed = timed();
    let names: Vec<&str> = timed.iter().map(|(name, _)| name.as_str()).collect();
    let said = |routes: &str| {
        let name = |(name, _): &(&str, [usize; 4])| name.replace(", ", &format!(", {routes}, "));
        SAID.iter().map(name).collect::<Vec<String>>()
    };
    assert_eq!(names, [said("routes of 30"), said("one route")].concat());
    for ((name, case), (_, [frozen, outs, puts, corrections])) in timed.iter().zip(SAID.iter().cycle()) {
        let (frozen, outs, puts, corrections) = (*frozen, *outs, *puts, *corrections);
        assert_eq!(sizes(case), Sizes { frozen, outs, puts, corrections, wanted: corrections }, "{name}");
        assert_eq!(check_log(&case.frozen, &case.log), Ok(()), "{name}");
        let picked = pick(&case.frozen, &case.log, &case.wanted).expect("the pick is accepted");
        assert_eq!(picked.taken, (1..=corrections).collect::<Vec<_>>(), "{name}");
        assert_eq!(picked.records.len(), frozen + puts - outs, "{name}");
        assert!(new_file(&case.frozen, &case.log, &case.wanted, case.room).is_ok(), "{name}");
    }
}

#[test]
fn the_programs_read_all_of_them() {
    for (name, case) in timed() {
        let whole = inputs(&case);
        assert_eq!(Inputs::of([&case.frozen, &case.log, &whole.want]), whole, "{name}");
        assert_eq!(numbers(&whole.want), case.wanted, "{name}");
    }
}
