//! Document 01's example through the entry point: a tray of three cells, M and D.

use harness::{box_cells, Answer, Lent, Record, Start};
use oracle::tray::Engine;

fn main() {
    let lent = Lent {
        pieces: vec![
            Record { a: 1, b: 1, c: 1, count: 1, wood: 0, start: 3 },
            Record { a: 1, b: 1, c: 2, count: 1, wood: 0, start: 4 },
        ],
        board: Record { a: 1, b: 1, c: 3, count: 0, wood: 0, start: 0 },
        bytes: vec![1; 6],
        engine: Engine::Fast,
        turned: false,
        mirrored: false,
    };
    let (mut answers, mut work) = ([0; 12], vec![0; 8_192]);
    let answer = lent.page(Start::Skip(0), &mut answers, &mut work, &mut []);
    assert_eq!(answer, Answer { number: 0, written: 2, further: false, missing: false });
    assert_eq!(answers, [0, 0, 1, 0, 1, 0, 1, 0, 1, 0, 0, 0]);
    for (entry, bytes) in answers.chunks(6).enumerate() {
        println!("{entry}\t{}", box_cells(bytes));
    }

    // The page behind the first entry holds the second.
    let mut second = [0; 6];
    let answer = lent.page(Start::Behind(&answers[..6]), &mut second, &mut work, &mut []);
    assert_eq!(answer, Answer { number: 0, written: 1, further: false, missing: false });
    assert_eq!(second, answers[6..]);

    // Behind what is no entry there is no page, and this is told.
    let answer = lent.page(Start::Behind(&[9; 6]), &mut second, &mut work, &mut []);
    assert_eq!(answer, Answer { number: 0, written: 0, further: false, missing: true });
}
