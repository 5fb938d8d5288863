//! Drills worked by hand (document 02, E12).

use reference::{drill, transcript, Cell, Drill, Outcome, Refusal, ANSWERS, RECORDS};

fn plan(cells: &[(u16, u8, u8)]) -> Vec<Cell> {
    cells.iter().map(|&(parent, kind, rank)| Cell { parent, kind, rank, width: 4, depth: 1, ..Cell::default() }).collect()
}

/// A run of: a choice of the steps 2 and 3; a repeat of the step 5; a wait with the step 7; a wait with none.
fn every_kind() -> Vec<Cell> {
    plan(&[(65_535, 2, 0), (0, 4, 0), (1, 1, 0), (1, 1, 0), (0, 3, 0), (4, 1, 0), (0, 5, 0), (6, 1, 0), (0, 5, 0)])
}

fn drilled(table: &[Cell], answers: &[u8]) -> (Outcome, usize, Vec<u16>) {
    let mut list = vec![999; RECORDS + 2];
    let Drill { outcome, used, records } = drill(table, answers, &mut list).expect("a drill");
    assert!(list[records..].iter().all(|n| *n == 999));
    (outcome, used, list[..records].to_vec())
}

#[test]
fn every_kind_and_outcome() {
    let t = every_kind();
    assert_eq!(drilled(&t, &[1, 2, 1, 0]), (Outcome::Finished, 4, vec![3, 5, 5, 7]));
    assert_eq!(drilled(&t, &[1, 2, 1, 0, 9]), (Outcome::Finished, 4, vec![3, 5, 5, 7]));
    assert_eq!(drilled(&t, &[0, 0, 0, 1]), (Outcome::Finished, 4, vec![2]));
    assert_eq!(drilled(&t, &[1, 2, 1]), (Outcome::Spent, 3, vec![3, 5, 5, 7]));
    assert_eq!(drilled(&t, &[]), (Outcome::Spent, 0, vec![]));
    assert_eq!(drilled(&t, &[2, 1]), (Outcome::Wrong, 1, vec![]));
    assert_eq!(drilled(&t, &[0, 1, 2]), (Outcome::Wrong, 3, vec![2, 5]));
}

#[test]
fn sons_by_rank() {
    let t = plan(&[(65_535, 2, 0), (0, 1, 9), (0, 1, 7), (0, 4, 1), (3, 1, 3), (3, 1, 2)]);
    assert_eq!(drilled(&t, &[0]), (Outcome::Finished, 1, vec![5, 2, 1]));
    assert_eq!(drilled(&t, &[1]), (Outcome::Finished, 1, vec![4, 2, 1]));
}

#[test]
fn full_after_4096_records() {
    // A repeat of a repeat of a step, then a step: 16 times 255 and 16 times 1.
    let t = plan(&[(65_535, 3, 0), (0, 2, 0), (1, 3, 0), (2, 1, 0), (1, 1, 0)]);
    let answers: Vec<u8> = [16].into_iter().chain([255; 16]).collect();
    let (outcome, used, steps) = drilled(&t, &answers);
    assert_eq!((outcome, used, steps.len()), (Outcome::Finished, 17, 4_096));
    let answers: Vec<u8> = [17].into_iter().chain([255; 16]).chain([1]).collect();
    let (outcome, used, steps) = drilled(&t, &answers);
    assert_eq!((outcome, used, steps.len()), (Outcome::Full, 18, 4_096));
}

#[test]
fn refusals() {
    let t = every_kind();
    let refused = |number, cell| Err(Refusal { number, cell });
    assert_eq!(drill(&t, &[], &mut [0; RECORDS - 1]), refused(1, 0));
    assert_eq!(drill(&[], &[0; ANSWERS + 1], &mut [0; RECORDS]), refused(4, 0));
    assert_eq!(drill(&t, &[0; ANSWERS + 1], &mut [0; RECORDS]), refused(21, 0));
    assert!(drill(&t, &[0; ANSWERS], &mut [0; RECORDS]).is_ok());
    let mut bad = t.clone();
    bad[8].kind = 4;
    assert_eq!(drill(&bad, &[0; ANSWERS + 1], &mut [0; RECORDS]), refused(11, 8));
}

#[test]
fn a_transcript() {
    // The printed example: a run of the steps A and Run.
    let file = b"UpARun\xff\xff\x02\x04\x01\x02\0\0\0\0\x01\x03\x01\x01\x02\0\0\0\x01\x05\x01\x03\x03\0\x06\0\x03\0\0\0\x53\x54";
    assert_eq!(String::from_utf8(transcript(file, &[])).unwrap(), "1 A\n2 Run\nfinished 0 2\n");
    assert_eq!(String::from_utf8(transcript(&file[1..], &[])).unwrap(), "refused 4 0\n");
    assert_eq!(String::from_utf8(transcript(file, &[0; ANSWERS + 1])).unwrap(), "refused 21 0\n");
}
