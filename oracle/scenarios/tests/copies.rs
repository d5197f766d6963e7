//! The copies of the source against each other, over generated scenarios.

use scenarios::{generate, rubbish, Kind};
use vehicle::program::call;
use vehicle::row::Row;
use vehicle::step::{run_as_sent, run_stored, Outcome, Step};
use vehicle::stream::{Code, Reader};
use vehicle::table::{Table, ACCEPTED};

fn codes_of(stream: &[u8]) -> Vec<Code> {
    let mut reader = Reader::new(stream);
    let mut codes = Vec::new();
    while let Ok(code) = reader.code() {
        if code == Code::End {
            break;
        }
        codes.push(code);
    }
    codes
}

fn bits(outcome: &Outcome) -> Vec<u32> {
    let rows = outcome.rows.iter().flat_map(|row| row.0);
    let velocities = outcome.linear.parts().into_iter().chain(outcome.angular.parts());
    // Both zeros are equal.
    rows.chain(velocities).map(|number| (number + 0.0).to_bits()).collect()
}

/// In a table that our calls wrote, the file as sent and the copy that takes the transforms as
/// stored give the same.
#[test]
fn as_sent_and_stored_agree_after_an_aim() {
    let mut drives = 0;
    for kind in [Kind::Car, Kind::Edge, Kind::Wild, Kind::Steer] {
        for seed in 0..60 {
            let mut table = Table::new();
            for code in codes_of(&generate(kind, seed)) {
                let before = table.clone();
                let answer = call(&mut table, &code).answer;
                let (Code::Drive(drive), ACCEPTED) = (&code, answer) else { continue };
                let rows: Vec<Row> =
                    (0..before.count as usize).map(|wheel| before.row(wheel)).collect();
                let step = Step {
                    rows: &rows,
                    up: before.up as usize,
                    forward: before.forward as usize,
                    chassis: &before.chassis(),
                    dt: drive.dt,
                    bodies: &drive.bodies,
                    answers: &drive.answers,
                };
                let (Some(sent), Some(stored)) = (run_as_sent(&step), run_stored(&step)) else {
                    panic!("an accepted drive does not panic");
                };
                assert_eq!(bits(&sent), bits(&stored), "{} {seed}", kind.name());
                drives += 1;
            }
        }
    }
    assert!(drives > 1000, "{drives}");
}

/// The same seed gives the same bytes.
#[test]
fn scenarios_are_determined_by_kind_and_seed() {
    for kind in Kind::ALL {
        for seed in [0, 1, 77, u64::MAX] {
            assert_eq!(generate(kind, seed), generate(kind, seed));
        }
        assert_ne!(generate(kind, 2), generate(kind, 10));
    }
}

/// Tables of rubbish get every answer of a call, and refusals leave them alone: 9 is the stream's,
/// and nothing has 11 or 13 to 16.
#[test]
fn tables_of_rubbish() {
    let mut seen = [0; 18];
    let mut drives = 0;
    for seed in 0..4000 {
        let scenarios::Rubbish { mut table, codes } = rubbish(seed);
        for code in &codes {
            let before = table.clone();
            let line = call(&mut table, code);
            seen[line.answer as usize] += 1;
            drives += usize::from(line.code == 4 && line.answer == ACCEPTED);
            if line.answer != ACCEPTED {
                let bits = |table: &Table| -> Vec<u32> {
                    table.numbers.iter().map(|number| number.to_bits()).collect()
                };
                assert_eq!(bits(&table), bits(&before));
                let whole = |table: &Table| [table.count, table.mark, table.up, table.forward];
                assert_eq!(whole(&table), whole(&before));
            }
        }
    }
    for answer in 0..seen.len() {
        let is_given = !matches!(answer, 9 | 11 | 13..=16);
        assert_eq!(seen[answer] > 0, is_given, "answer {answer}: {seen:?}");
    }
    assert!(drives > 100, "{drives} accepted drives");
}
