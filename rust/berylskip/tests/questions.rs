//! Each question of the document's job, and a refusal of each with what memory then holds.
use berylskip::{
    chart, depths_needed, ends, forest, marks, tree, words_needed, Branch, Chart, Ends, Refused,
    NO_END,
};

const GRAMMAR: &[u8] = &[3, 0, 0, 0, 1, 1, 2, 0, 3, 128, 1, 0, 0, 1, 0];
const LINE: &[u8] = &[2, 0, 1, 0, 1, 0];
const BLANK: Branch = Branch {
    rule: 9,
    place: 9,
    start: 9,
    middle: 9,
    end: 9,
};
const WORDS: usize = 7;
const DEPTHS: usize = 49;

// Work memory of exactly the size needed, full of what no question writes there.
fn work() -> ([u64; WORDS], [u16; DEPTHS]) {
    ([u64::MAX; WORDS], [u16::MAX; DEPTHS])
}

// What a question answers that is turned down.
fn refused<T>(number: u8, place: usize) -> Result<T, Refused> {
    Err(Refused { number, place })
}

// The chart and the depths of the job.
fn filled() -> ([u64; WORDS], [u16; DEPTHS]) {
    let mut words = [0; WORDS];
    let mut depths = [0; DEPTHS];
    for (start, end, depth) in [
        (1, 2, 1),
        (1, 4, 2),
        (1, 6, 3),
        (3, 4, 1),
        (3, 6, 2),
        (5, 6, 1),
    ] {
        words[start] |= 1 << end;
        depths[start * 7 + end] = depth;
    }
    (words, depths)
}

#[test]
fn sizes() {
    assert_eq!((words_needed(1, 6), depths_needed(1, 6)), (WORDS, DEPTHS));
    assert_eq!(
        (words_needed(32, 63), depths_needed(32, 63)),
        (2048, 131072)
    );
    assert_eq!(
        (words_needed(usize::MAX, 1), depths_needed(2, usize::MAX)),
        (usize::MAX, usize::MAX)
    );
}

#[test]
fn chart_of_the_job() {
    let (mut words, mut depths) = work();
    assert_eq!(
        chart(GRAMMAR, LINE, &mut words, &mut depths),
        Ok(Chart {
            rounds: 3,
            facts: 6
        })
    );
    assert_eq!((words, depths), filled());
}

#[test]
fn memory_past_the_chart_is_as_before() {
    let mut words = [9; WORDS + 1];
    let mut depths = [9; DEPTHS + 1];
    assert!(chart(GRAMMAR, LINE, &mut words, &mut depths).is_ok());
    assert_eq!((words[WORDS], depths[DEPTHS]), (9, 9));
}

#[test]
fn chart_refuses() {
    let (mut words, mut depths) = work();
    assert_eq!(chart(&[], LINE, &mut words, &mut depths), refused(1, 0));
    assert_eq!(chart(&[0], LINE, &mut words, &mut depths), refused(2, 0));
    assert_eq!(chart(&[1, 2], LINE, &mut words, &mut depths), refused(3, 1));
    assert_eq!(
        chart(&[1, 0, 1, 0, 1, 1], LINE, &mut words, &mut depths),
        refused(4, 5)
    );
    assert_eq!(
        chart(&[1, 0, 1, 0, 0, 7], LINE, &mut words, &mut depths),
        refused(5, 5)
    );
    assert_eq!(
        chart(GRAMMAR, &[0; 64], &mut words, &mut depths),
        refused(6, 63)
    );
    assert_eq!(
        chart(GRAMMAR, &[0, 3], &mut words, &mut depths),
        refused(7, 1)
    );
    assert_eq!(
        chart(GRAMMAR, LINE, &mut words[1..], &mut depths),
        refused(9, 0)
    );
    assert_eq!(
        chart(GRAMMAR, LINE, &mut words, &mut depths[1..]),
        refused(9, 1)
    );
    assert_eq!((words, depths), work());
}

#[test]
fn a_repeated_rule_is_refused() {
    let (mut words, mut depths) = work();
    let (mut bytes, mut rows) = ([7; 33], [BLANK; 15]);
    let mut twice = GRAMMAR.to_vec();
    twice[6] = 3;
    twice.extend([0, 3, 128, 1, 0]);
    assert_eq!(
        chart(&twice, LINE, &mut words, &mut depths),
        refused(14, 15)
    );
    assert_eq!(
        ends(&twice, LINE, 0, 1, &mut words, &mut depths),
        refused(14, 15)
    );
    assert_eq!(
        marks(&twice, LINE, &mut words, &mut depths, &mut bytes),
        refused(14, 15)
    );
    assert_eq!(
        tree(&twice, LINE, 0, 1, 6, &mut words, &mut depths, &mut bytes),
        refused(14, 15)
    );
    assert_eq!(
        forest(&twice, LINE, &mut words, &mut depths, &mut rows),
        refused(14, 15)
    );
    assert_eq!((words, depths), work());
    assert_eq!((bytes, rows), ([7; 33], [BLANK; 15]));
}

#[test]
fn empty_line() {
    let (mut words, mut depths) = work();
    assert_eq!(
        chart(GRAMMAR, &[], &mut words, &mut depths),
        Ok(Chart {
            rounds: 0,
            facts: 0
        })
    );
    assert_eq!(marks(GRAMMAR, &[], &mut words, &mut depths, &mut []), Ok(0));
}

#[test]
fn ends_of_the_job() {
    let (mut words, mut depths) = work();
    let row = Ends {
        row: 84,
        ends: 3,
        smallest: 2,
        largest: 6,
    };
    assert_eq!(ends(GRAMMAR, LINE, 0, 1, &mut words, &mut depths), Ok(row));
    assert_eq!((words, depths), filled());
    let none = Ends {
        row: 0,
        ends: 0,
        smallest: 255,
        largest: 255,
    };
    assert_eq!(ends(GRAMMAR, LINE, 0, 0, &mut words, &mut depths), Ok(none));
    assert_eq!(NO_END, 255);
}

#[test]
fn ends_0_and_63() {
    // A → A 0 and A → empty: every end from the start on
    let grammar = [1, 0, 1, 0, 2, 0, 2, 128, 0, 0, 0];
    let mut words = [9; 64];
    let mut depths = [9; 64 * 64];
    for (line, start, row, count, smallest, largest) in [
        (&[0; 63][..], 0, u64::MAX, 64, 0, 63),
        (&[0; 63], 63, 1 << 63, 1, 63, 63),
        (&[], 0, 1, 1, 0, 0),
    ] {
        assert_eq!(
            ends(&grammar, line, 0, start, &mut words, &mut depths),
            Ok(Ends {
                row,
                ends: count,
                smallest,
                largest,
            })
        );
    }
}

#[test]
fn ends_refuses() {
    let (mut words, mut depths) = work();
    assert_eq!(
        ends(GRAMMAR, LINE, 1, 9, &mut words, &mut depths),
        refused(8, 0)
    );
    assert_eq!(
        ends(GRAMMAR, LINE, 0, 7, &mut words, &mut depths),
        refused(8, 1)
    );
    assert_eq!((words, depths), work());
}

#[test]
fn marks_of_the_job() {
    let (mut words, mut depths) = work();
    let mut bytes = [7; 7];
    assert_eq!(
        marks(GRAMMAR, LINE, &mut words, &mut depths, &mut bytes),
        Ok(5)
    );
    assert_eq!(bytes, [0, 1, 1, 1, 1, 1, 7]);
    assert_eq!((words, depths), filled());
}

#[test]
fn marks_refuses() {
    let (mut words, mut depths) = work();
    let mut bytes = [7; 5];
    assert_eq!(
        marks(GRAMMAR, LINE, &mut words[1..], &mut depths, &mut bytes),
        refused(9, 0)
    );
    assert_eq!((words, depths, bytes), (work().0, work().1, [7; 5]));
    assert_eq!(
        marks(GRAMMAR, LINE, &mut words, &mut depths, &mut bytes),
        refused(11, 6)
    );
    assert_eq!((words, depths, bytes), (filled().0, filled().1, [7; 5]));
}

#[test]
fn tree_of_the_job() {
    let (mut words, mut depths) = work();
    let mut out = [7; 33];
    assert_eq!(
        tree(GRAMMAR, LINE, 0, 1, 6, &mut words, &mut depths, &mut out),
        Ok(8)
    );
    let nodes: [[u8; 4]; 8] = [
        [1, 0, 1, 6],
        [1, 0, 1, 4],
        [1, 1, 1, 2],
        [0, 0, 1, 2],
        [0, 1, 2, 3],
        [0, 0, 3, 4],
        [0, 1, 4, 5],
        [0, 0, 5, 6],
    ];
    assert_eq!((out[..32].to_vec(), out[32]), (nodes.concat(), 7));
    assert_eq!((words, depths), filled());
}

#[test]
fn tree_refuses() {
    let (mut words, mut depths) = work();
    let mut out = [7; 31];
    assert_eq!(
        tree(GRAMMAR, LINE, 0, 2, 1, &mut words, &mut depths, &mut out),
        refused(8, 2)
    );
    assert_eq!((words, depths, out), (work().0, work().1, [7; 31]));
    assert_eq!(
        tree(GRAMMAR, LINE, 0, 0, 6, &mut words, &mut depths, &mut out),
        refused(10, 0)
    );
    assert_eq!((words, depths, out), (filled().0, filled().1, [7; 31]));
    assert_eq!(
        tree(GRAMMAR, LINE, 0, 1, 6, &mut words, &mut depths, &mut out),
        refused(11, 0)
    );
    assert_eq!((words, depths, out), (filled().0, filled().1, [7; 31]));
}

#[test]
fn forest_of_the_job() {
    let (mut words, mut depths) = work();
    let mut rows = [BLANK; 16];
    assert_eq!(
        forest(GRAMMAR, LINE, &mut words, &mut depths, &mut rows),
        Ok(15)
    );
    let mut expected: Vec<Branch> = Vec::new();
    for (rule, place, start, middle, end) in [
        (0, 1, 1, 1, 2),
        (0, 1, 1, 1, 4),
        (0, 1, 1, 1, 6),
        (0, 1, 3, 3, 4),
        (0, 1, 3, 3, 6),
        (0, 1, 5, 5, 6),
        (0, 2, 1, 2, 3),
        (0, 2, 1, 4, 5),
        (0, 2, 3, 4, 5),
        (0, 3, 1, 3, 4),
        (0, 3, 1, 5, 6),
        (0, 3, 3, 5, 6),
        (1, 1, 1, 1, 2),
        (1, 1, 3, 3, 4),
        (1, 1, 5, 5, 6),
    ] {
        expected.push(Branch {
            rule,
            place,
            start,
            middle,
            end,
        });
    }
    assert_eq!((rows[..15].to_vec(), rows[15]), (expected, BLANK));
    assert_eq!((words, depths), filled());
}

#[test]
fn forest_refuses() {
    let (mut words, mut depths) = work();
    let mut rows = [BLANK; 14];
    assert_eq!(
        forest(GRAMMAR, &[3], &mut words, &mut depths, &mut rows),
        refused(7, 0)
    );
    assert_eq!((words, depths, rows), (work().0, work().1, [BLANK; 14]));
    assert_eq!(
        forest(GRAMMAR, LINE, &mut words, &mut depths, &mut rows),
        refused(11, 15)
    );
    assert_eq!((words, depths, rows), (filled().0, filled().1, [BLANK; 14]));
}
