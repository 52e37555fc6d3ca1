//! The stored folders keep their limits and meet every refusal, the four answers
//! agree with each other, and the examples are what they tell.

use std::collections::HashSet;

use reference::answers::{check_answer, newfile_answer, pick_answer, why_answer, Inputs};
use reference::compare::differences;
use reference::folders::{all, answer, examples, packed, stored_files, unpacked, Folder};
use reference::random_folders::random;

fn text(bytes: Vec<u8>) -> String {
    String::from_utf8(bytes).expect("an answer is text")
}

/// The first line of an answer, which is text where a later one may be none.
fn first_line(answer: &[u8]) -> String {
    text(answer.split(|byte| *byte == b'\n').next().expect("a line").to_vec())
}

/// By which number an answer refuses, 0 where it stands.
fn refusal_number(answer: &[u8]) -> usize {
    match first_line(answer).strip_prefix("no\t") {
        Some(rest) => rest.split('\t').next().and_then(|word| word.parse().ok()).expect("a number"),
        None => 0,
    }
}

fn stored_and_random() -> impl Iterator<Item = Inputs> {
    all().into_iter().map(|folder| folder.inputs()).chain((1..=500).map(|number| random(1, number)))
}

#[test]
fn what_is_stored_is_what_is_read() {
    let inputs: Vec<Inputs> = all().iter().map(Folder::inputs).collect();
    assert!(unpacked(&stored_files()[0].1) == inputs);
    for (folder, Inputs { frozen, log, want }) in all().iter().zip(&inputs) {
        let lengths = [frozen.len(), log.len(), want.len()];
        assert!(lengths[0] <= 63_841 && lengths[1] <= 60_001 && lengths[2] <= 801, "{}", folder.name);
    }
    let lengths: HashSet<usize> =
        inputs.iter().flat_map(|i| [i.frozen.len(), i.log.len(), i.want.len()]).collect();
    for limit in [63_840, 63_841, 60_000, 60_001, 800, 801] {
        assert!(lengths.contains(&limit), "no file of {limit} bytes");
    }
}

#[test]
fn every_refusal_is_met_that_can_be() {
    let numbers = |print: fn(&Inputs) -> Vec<u8>| -> HashSet<usize> {
        all().iter().map(|folder| refusal_number(&print(&folder.inputs()))).collect()
    };
    assert_eq!(numbers(pick_answer), (0..=13).collect());
    assert_eq!(numbers(newfile_answer), (0..=13).collect());
    assert_eq!(numbers(why_answer), (0..=13).collect());
    assert_eq!(numbers(check_answer), (0..=13).filter(|number| *number != 12).collect());
}

#[test]
fn the_four_answers_agree() {
    for inputs in stored_and_random() {
        let (picked, made, checked) = (pick_answer(&inputs), newfile_answer(&inputs), check_answer(&inputs));
        let explained = why_answer(&inputs);
        assert!(picked.len() <= 1_813 && made.len() <= 63_840 && explained.len() <= 8_600);
        match refusal_number(&picked) {
            0 => {
                let records =
                    first_line(&picked).split('\t').nth(2).and_then(|word| word.parse::<usize>().ok());
                assert_eq!(records, Some(made.len() / 133));
                assert!(made.chunks(133).all(|line| b"ST".contains(&line[0]) && line[132] == b'\n'));
                assert!(checked.starts_with(b"ok\t"));
                // A line for each one taken, which begins as that of the pick.
                let (picked, explained) = (text(picked), text(explained));
                assert_eq!(picked.lines().count(), 1 + explained.lines().count());
                let begins = |(take, reason): (&str, &str)| reason.starts_with(&format!("{take}\t"));
                assert!(picked.lines().skip(1).zip(explained.lines()).all(begins));
            }
            // Nothing wanted is asked about by a check, which may go on to 10 and 11.
            12 => {
                assert!(made == picked && explained == picked);
                assert!([0, 10, 11].contains(&refusal_number(&checked)));
            }
            _ => assert!(made == picked && checked == picked && explained.starts_with(&picked)),
        }
    }
}

#[test]
fn the_requirement_prints_exactly_this() {
    let [pqr, ..] = examples();
    assert_eq!(text(pick_answer(&pqr.inputs())), "pick\t3\t3\ntake\t1\ntake\t3\ntake\t5\n");
    assert_eq!(text(check_answer(&pqr.inputs())), "ok\t3\t5\n");
    let [p, r] = ["SEURP LPRDLPFI09   APAINE", "SEURP LPRDLPFI09   ARADIX"];
    let reasons = format!("take\t1\tfor\t3\t{p}\ntake\t3\tfor\t5\t{r}\ntake\t5\twanted\n");
    assert_eq!(text(why_answer(&pqr.inputs())), reasons);
    let inputs = Inputs { want: b"6\n".to_vec(), ..pqr.inputs() };
    assert_eq!(text(pick_answer(&inputs)), "no\t12\t1\t0\n");
    assert_eq!(text(newfile_answer(&inputs)), "no\t12\t1\t0\n");
    assert_eq!(text(why_answer(&inputs)), "no\t12\t1\t0\n");
}

/// The check of the stored folder with this name.
fn check_of(name: &str) -> String {
    let folder = all().into_iter().find(|folder| folder.name == name).expect("a folder of that name");
    text(check_answer(&folder.inputs()))
}

#[test]
fn a_file_from_the_end_of_2020() {
    assert_eq!(check_of("cycle 2014"), "ok\t3\t5\n");
    assert_eq!(check_of("cycle 2114: frozen.txt"), "no\t3\t1\t132\n");
    assert_eq!(check_of("cycle 2114: log.txt"), "no\t11\t1\t3\n");
}

#[test]
fn the_bad_byte_in_a_file_and_the_number_in_a_log() {
    assert_eq!(check_of("1500 and a blank: frozen.txt"), "no\t3\t2\t89\n");
    assert_eq!(check_of("1500 and a blank: log.txt"), "no\t11\t1\t3\n");
}

/// The lines of the last correction: the record taken out and the one put in.
fn last_change(log: &[u8]) -> (String, String) {
    let log = text(log.to_vec());
    let mut lines = log.lines().rev();
    let mut record =
        |letter: &str| lines.next().and_then(|line| line.strip_prefix(letter)).map(str::to_string);
    let put_in = record("A\t").expect("it ends with an A line");
    let taken_out = record("D\t").expect("a D line stands before it");
    (taken_out, put_in)
}

#[test]
fn the_leg_that_was_left_behind() {
    let [_, left_behind, by_cycle_date] = examples();
    let inputs = left_behind.inputs();
    assert_eq!(text(pick_answer(&inputs)), "pick\t2\t10\ntake\t1\ntake\t3\n");
    // The last correction alone has the newest cycle, and without the first its leg is refused.
    let (taken_out, put_in) = last_change(&inputs.log);
    let cycle = |record: &str| record[128..].to_string();
    let records: Vec<String> =
        text(inputs.log).lines().filter_map(|line| line.strip_prefix("A\t")).map(cycle).collect();
    assert_eq!(records.iter().filter(|other| **other >= cycle(&put_in)).count(), 1);
    let newest_alone = text(inputs.frozen).replace(&taken_out, &put_in);
    assert_eq!(newest_alone, text(by_cycle_date.inputs().frozen));
    assert_eq!(text(check_answer(&by_cycle_date.inputs())), "no\t8\t8\t48\n");
    // The first is taken for the last, by the approach; the newest alone is refused at the leg it puts in.
    let reasons = format!("take\t1\tfor\t3\t{}\ntake\t3\twanted\n", &put_in[..25]);
    assert_eq!(text(why_answer(&left_behind.inputs())), reasons);
    assert_eq!(text(why_answer(&by_cycle_date.inputs())), format!("no\t8\t8\t48\nrecord\t{put_in}\n"));
}

#[test]
fn a_seed_gives_the_same_folders_and_another_gives_others() {
    let folders = |seed: u64| (1..=50).flat_map(|number| packed(&random(seed, number))).collect::<Vec<u8>>();
    assert!(folders(0) == folders(0));
    assert!(folders(0) != folders(1));
    let distinct: HashSet<Vec<u8>> = (1..=500).map(|number| packed(&random(2, number))).collect();
    assert!(distinct.len() > 450, "{} of 500 are distinct", distinct.len());
}

#[test]
fn a_difference_is_found_where_it_is() {
    let expected: Vec<Vec<u8>> =
        (1..).zip((1..=5).map(|number| random(3, number))).map(|(n, one)| answer(n, &one)).collect();
    let found = |printed: &[Vec<u8>]| differences(&expected, &printed.concat());
    assert_eq!(found(&expected), []);
    assert_eq!(found(&expected[..4]), [3, 4]);
    assert_eq!(found(&[]), [0, 1, 2, 3, 4]);
    assert_eq!(found(&[&expected[..], &[b"more\n".to_vec()]].concat()), [4]);
    for at in 0..5 {
        let mut printed = expected.clone();
        let last = printed[at].len() - 2;
        printed[at][last] ^= 1;
        assert_eq!(found(&printed), [at]);
    }
}
