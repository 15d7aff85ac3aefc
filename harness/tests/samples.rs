//! Document 01's samples, with the numbers that it gives, and those of the requests.

use harness::random::{full, Density, Random};
use harness::reference::{self, Kind, Model, Operand};
use harness::{ffi, random, Answer};

/// Model P: level 1 least, level 2 greatest; line 0 is all of (level 1, line 1), line 1 any of (level 2, line 0).
const P: [u8; 54] = [
    2, 0, 2, 0, 0x10, 0, 0, 0, 0x12, 0, 0, 0, 0x16, 0, 0, 0, // header
    0, 1, // signs
    1, 0, 0, 0, // kinds, each with its threshold
    2, 0, 0, 0, 0, 0, 0, 0, // line 0, level 1
    0, 0, 0, 0, 0, 0, 0, 0, // line 0, level 2
    0, 0, 0, 0, 0, 0, 0, 0, // line 1, level 1
    1, 0, 0, 0, 0, 0, 0, 0, // line 1, level 2
];

/// Its old file, the one that document 01 gives.
fn old_p() -> [u8; 52] {
    let begin = [2, 0, 2, 0, 0x10, 0, 0, 0, 0x12, 0, 0, 0, 0x14, 0, 0, 0, 0, 1, 1, 0];
    [&begin, &P[22..]].concat().try_into().expect("it has 52 bytes")
}

/// P in both layouts.
fn ps() -> [Vec<u8>; 2] {
    [P.to_vec(), old_p().to_vec()]
}

/// Model Q: P with both signs turned over.
fn qs() -> [Vec<u8>; 2] {
    ps().map(|mut file| {
        file[16..18].copy_from_slice(&[1, 0]);
        file
    })
}

/// P joined with itself: lines 2 and 3 read lines 3 and 2, as lines 0 and 1 read lines 1 and 0.
const TWO_PS: [u8; 90] = [
    4, 0, 2, 0, 0x10, 0, 0, 0, 0x12, 0, 0, 0, 0x1a, 0, 0, 0, // header
    0, 1, // signs
    1, 0, 0, 0, 1, 0, 0, 0, // kinds, each with its threshold
    2, 0, 0, 0, 0, 0, 0, 0, // line 0, level 1
    0, 0, 0, 0, 0, 0, 0, 0, // line 0, level 2
    0, 0, 0, 0, 0, 0, 0, 0, // line 1, level 1
    1, 0, 0, 0, 0, 0, 0, 0, // line 1, level 2
    8, 0, 0, 0, 0, 0, 0, 0, // line 2, level 1
    0, 0, 0, 0, 0, 0, 0, 0, // line 2, level 2
    0, 0, 0, 0, 0, 0, 0, 0, // line 3, level 1
    4, 0, 0, 0, 0, 0, 0, 0, // line 3, level 2
];

/// One line, any of itself, one level.
fn one_line(greatest: bool) -> Vec<u8> {
    let operands = vec![vec![Operand { level: 0, line: 0 }]];
    Model { greatest: vec![greatest], kinds: vec![Kind::Any], operands }.file()
}

#[test]
fn p_is_read_and_written() {
    for p in ps() {
        let (mut signs, mut kinds, mut thresholds, mut words) = ([7; 3], [7; 3], [7; 3], [7; 5]);
        let answer = ffi::read(&p, &mut signs, &mut kinds, &mut thresholds, &mut words);
        assert_eq!(answer, Answer { lines: 2, levels: 2, ..Answer::default() });
        assert_eq!((signs, kinds, thresholds), ([0, 1, 7], [1, 0, 7], [0, 0, 7]));
        assert_eq!(words, [2, 0, 0, 1, 7]);
    }
    let mut buffer = [7; 55];
    let answer = ffi::write(2, 2, &[0, 1], &[1, 0], &[0, 0], &[2, 0, 0, 1], &mut buffer);
    assert_eq!(answer, Answer { length: 54, ..Answer::default() });
    assert_eq!((&buffer[..54], buffer[54]), (&P[..], 7));
}

#[test]
fn p_is_queried() {
    // Line 0 reads line 1 of the first argument, line 1 reads line 0 of the second.
    for (xs, set) in [([0, 0], 0), ([2, 0], 1), ([0, 1], 2), ([2, 1], 3), ([1, 2], 0)] {
        for p in ps() {
            assert_eq!(ffi::query(&p, &xs), Answer { set, ..Answer::default() });
        }
    }
}

#[test]
fn p_and_q_between_empty_and_full() {
    for (p, q) in ps().iter().zip(&qs()) {
        assert_eq!(ffi::plain(p, 0, 3, 1_000_000), Answer::judged(3, 3));
        assert_eq!(ffi::built(p, 0, 3, 1_000_000), Answer::judged(3, 4));
        assert_eq!(ffi::plain(q, 0, 3, 1_000_000), Answer::judged(0, 3));
        assert_eq!(ffi::built(q, 0, 3, 1_000_000), Answer::judged(0, 4));
    }
}

#[test]
fn p_and_q_by_small_trees() {
    for (p, q) in ps().iter().zip(&qs()) {
        assert_eq!(ffi::lent(p, 0, 3, &[], &[]), Answer::judged(2, 1));
        assert_eq!(ffi::lent(p, 0, 3, &[1], &[]), Answer::judged(3, 2));
        assert_eq!(ffi::lent(q, 0, 3, &[], &[]), Answer::judged(1, 1));
    }
}

#[test]
fn p_is_joined() {
    for (first, second) in ps().iter().flat_map(|first| ps().map(|second| (first.clone(), second))) {
        let mut buffer = [7; 91];
        assert_eq!(ffi::join(&first, &second, &mut buffer), Answer { length: 90, ..Answer::default() });
        assert_eq!((&buffer[..90], buffer[90]), (&TWO_PS[..], 7));
        let mut short = [7; 89];
        assert_eq!(ffi::join(&first, &second, &mut short), Answer::refused(12));
        assert_eq!(short, [7; 89]);
        assert_eq!(ffi::join(&first, &qs()[0], &mut buffer), Answer::refused(15));
    }
    assert_eq!(ffi::plain(&TWO_PS, 0, 15, 1_000_000), Answer::judged(15, 3));
    assert_eq!(ffi::built(&TWO_PS, 0, 15, 16), Answer::judged(15, 16));
}

#[test]
fn cabinets_with_other_votes_side_by_side() {
    // Of four lines each: two of three suffice in the first, all three are needed in the second.
    let mut buffer = [0; 4248];
    let answer = ffi::join(&three_pyrometers(2), &three_pyrometers(3), &mut buffer);
    assert_eq!(answer, Answer { length: 16 + 1 + 16 + 64, ..Answer::default() });
    let file = &buffer[..answer.length as usize];
    assert_eq!(ffi::plain(file, 0, 255, 10), Answer::judged(11 + 16 * 3, 3));
    assert_eq!(ffi::built(file, 0, 255, 8), Answer::judged(11 + 16 * 3, 8));
    assert_eq!(ffi::join(&three_pyrometers(4), &three_pyrometers(0), &mut []), Answer::refused(14));
}

#[test]
fn one_line_of_itself() {
    assert_eq!(ffi::plain(&one_line(false), 0, 1, 1), Answer::judged(0, 1));
    assert_eq!(ffi::plain(&one_line(true), 0, 1, 1), Answer::judged(1, 1));
}

/// Four lines at one least level: lines 0 and 1 are all of none, line 2 any of none, line 3 at least t of these three.
fn three_pyrometers(t: u8) -> Vec<u8> {
    let mut file = vec![4, 0, 1, 0, 0x10, 0, 0, 0, 0x11, 0, 0, 0, 0x19, 0, 0, 0];
    file.push(0);
    file.extend([1, 0, 1, 0, 0, 0, 2, t]);
    for word in [0, 0, 0, 7_u64] {
        file.extend(word.to_le_bytes());
    }
    file
}

#[test]
fn a_vote_of_three() {
    // No line, then lines 0 and 1, then line 3 where two of three suffice; a last round shows the same.
    for (t, set, rounds, mark) in [(1, 11, 3, '+'), (2, 11, 3, '+'), (3, 3, 2, '-')] {
        let file = three_pyrometers(t);
        assert_eq!(file.len(), 57);
        assert_eq!(ffi::plain(&file, 0, 15, 10), Answer::judged(set, rounds));
        assert_eq!(ffi::built(&file, 0, 15, 4), Answer::judged(set, 4));
        assert_eq!(ffi::lent(&file, 0, 15, &[], &[]), Answer::judged(3, 1));
        assert_eq!(ffi::lent(&file, 0, 15, &[1], &[]), Answer::judged(set, 2));
        let mut page = [0; 41 * 5];
        assert_eq!(ffi::page(&file, &mut page), Answer { length: 41 * 5, ..Answer::default() });
        let row = format!(" 3 vot {mark}                                \n");
        assert_eq!(String::from_utf8_lossy(&page[41 * 4..]), row);
    }
    for t in [0, 4, 255] {
        assert_eq!(ffi::built(&three_pyrometers(t), 0, 15, 0), Answer::refused(14));
    }
}

#[test]
fn a_vote_of_one_line_at_two_levels() {
    // Level 1 least, level 2 greatest. Of itself at both levels one is there for ever; two are never, as level 1 begins with none.
    for (t, set) in [(1, 1), (2, 0)] {
        let operands = vec![[0, 1].map(|level| Operand { level, line: 0 }).to_vec()];
        let file = Model { greatest: vec![false, true], kinds: vec![Kind::AtLeast(t)], operands }.file();
        assert_eq!(ffi::plain(&file, 0, 1, 10).set, set);
        assert_eq!(ffi::built(&file, 0, 1, 1), Answer::judged(set, 1));
    }
}

/// Four lines at one level: line 0 is any of none, line 1 all of none, line 2 any of lines 0 and 2, line 3 all of lines 1 and 3.
fn dead_ends(greatest: bool) -> Vec<u8> {
    let operands = [&[][..], &[], &[0, 2], &[1, 3]];
    let operands =
        operands.map(|lines| lines.iter().map(|&line| Operand { level: 0, line }).collect()).to_vec();
    let kinds = vec![Kind::Any, Kind::All, Kind::Any, Kind::All];
    Model { greatest: vec![greatest], kinds, operands }.file()
}

#[test]
fn lines_without_operands() {
    // Least: no line, then line 1, which a second round shows again. Greatest: all lines, then all but line 0, and again.
    for (greatest, set) in [(false, 2), (true, 14)] {
        let file = dead_ends(greatest);
        assert_eq!(ffi::plain(&file, 0, 15, 2), Answer::judged(set, 2));
        assert_eq!(ffi::plain(&file, 0, 15, 1), Answer::refused(10));
        assert_eq!(ffi::built(&file, 0, 15, 4), Answer::judged(set, 4));
    }
}

/// The first row of the page of a file of n lines.
fn first_row(file: &[u8], n: usize) -> String {
    let mut page = vec![0; 41 * (n + 1)];
    assert_eq!(ffi::page(file, &mut page), Answer { length: page.len() as u64, ..Answer::default() });
    String::from_utf8_lossy(&page[..41]).into_owned()
}

#[test]
fn shares_at_a_half() {
    // 1000 / 16 is 62.5 and 3000 / 16 is 187.5; the even neighbours are 62 and 188.
    for (good, share) in [(1, "  62"), (3, " 188")] {
        for spares in [0, 1, 2, 16, 48] {
            // Line 0 is all of lines 1 to 15, the last of which are all of none and the others any of none, and so are the spare lines.
            let n = 16 + spares;
            let all = |i: usize| i == 0 || (16 - good..16 + spares / 2).contains(&i);
            let kinds = (0..n).map(|i| if all(i) { Kind::All } else { Kind::Any }).collect();
            let mut operands = vec![Vec::new(); n];
            operands[0] = (1..16).map(|line| Operand { level: 0, line }).collect();
            let file = Model { greatest: vec![false], kinds, operands }.file();
            assert_eq!(ffi::built(&file, 0, full(n), n as u64).set.count_ones() as usize, good + spares / 2);
            assert_eq!(first_row(&file, n), format!("lines {n} levels 1 share {share}            \n"));
        }
    }
}

#[test]
fn spare_lines_do_not_count() {
    // Level 1 least, level 2 greatest. Line 0 is any of (level 2, line 2) and line 2 any of itself at level 1, so that neither is good.
    // Line 1 is all of none, and line 3 all of (level 1, line 0) and of itself at level 2; no other line reads these two.
    let lines = [
        (Kind::Any, &[(2, 2)][..]),
        (Kind::All, &[]),
        (Kind::Any, &[(1, 2)]),
        (Kind::All, &[(1, 0), (2, 3)]),
    ];
    let mut model = Model::of(&[false, true], &lines);
    let compare = |model: &Model, set: u64, share: &str| {
        let mut files = vec![model.file()];
        files.extend((!model.has_votes()).then(|| model.old_file()));
        for file in files {
            assert_eq!(ffi::built(&file, 0, 15, 16), Answer::judged(set, 16));
            assert_eq!(first_row(&file, 4), format!("lines  4 levels 2 share {share}            \n"));
        }
    };
    compare(&model, 0b0010, "   0");
    // Line 2 of itself at level 2 is good, by it line 0, and by that line 3.
    model.operands[2][0].level = 1;
    compare(&model, 0b1111, "1000");
    model.kinds[1] = Kind::Any;
    compare(&model, 0b1101, "1000");
    // Line 2 reads line 1, too: of three lines that are met, two are good, and then three.
    model.operands[2].insert(0, Operand { level: 0, line: 1 });
    compare(&model, 0b1101, " 667");
    model.kinds[2] = Kind::AtLeast(1);
    compare(&model, 0b1101, " 667");
    model.kinds[1] = Kind::All;
    compare(&model, 0b1111, "1000");
    // Two votes of two, by line 1 at level 1.
    model.kinds[2] = Kind::AtLeast(2);
    compare(&model, 0b1111, "1000");
    model.kinds[1] = Kind::Any;
    compare(&model, 0b0000, "   0");
}

#[test]
fn p_between_equal_bounds() {
    assert_eq!(ffi::plain(&P, 1, 1, 10).set, 1);
    assert_eq!(ffi::built(&P, 1, 1, 4).set, 1);
    assert_eq!(ffi::lent(&P, 1, 1, &[], &[]).set, 1);
}

#[test]
fn leaf_counts() {
    // With h levels of one sign the other tree has height 0 and one leaf.
    for (n, h, leaves) in [(4, 2, 8), (8, 2, 21), (4, 3, 13), (64, 1, 64)] {
        for greatest in [false, true] {
            let file = Model::of(&vec![greatest; h], &vec![(Kind::All, &[][..]); n]).file();
            assert_eq!(ffi::built(&file, 0, full(n), 0), Answer::over(leaves), "L({n}, {h})");
            assert_eq!(ffi::built(&file, 0, full(n), leaves - 1), Answer::over(leaves), "L({n}, {h})");
            assert_eq!(ffi::built(&file, 0, full(n), leaves), Answer::judged(full(n), leaves), "L({n}, {h})");
        }
    }
}

#[test]
fn lending_the_gaps_of_s_answers_as_the_built_in_tree_does() {
    // Two levels of each sign, so that both trees have height 2.
    for (n, gaps) in [(2, &[2, 1][..]), (3, &[2, 1, 1, 2])] {
        let mut random = Random::new(701);
        for _ in 0..50 {
            let model = random::model(&mut random, n, &[false, true, false, true], Density::Few);
            let lent = reference::lent(&model.file(), 0, full(n), gaps, gaps);
            assert_eq!(lent, ffi::lent(&model.file(), 0, full(n), gaps, gaps), "{model:?}");
            let leaves = (gaps.len() as u64 + 1).pow(2);
            assert_eq!(lent, ffi::built(&model.file(), 0, full(n), leaves), "{model:?}");
            assert_eq!(lent.count, leaves);
        }
    }
}

#[test]
fn ceilings_of_p() {
    assert_eq!(ffi::plain(&P, 0, 3, 3).number, 0);
    assert_eq!(ffi::plain(&P, 0, 3, 2), Answer::refused(10));
    assert_eq!(ffi::plain(&P, 0, 3, 0), Answer::refused(10));
    // One least and one greatest level of two lines: both built-in trees have two leaves, whatever the bounds.
    for p in ps() {
        for (a, b, set) in [(0, 3, 3), (2, 2, 2)] {
            for ceiling in [4, 5, u64::MAX] {
                assert_eq!(ffi::built(&p, a, b, ceiling), Answer::judged(set, 4));
            }
            for ceiling in [3, 0] {
                let refusal = Answer { number: 10, count: 4, ..Answer::default() };
                assert_eq!(ffi::built(&p, a, b, ceiling), refusal);
            }
        }
    }
}

#[test]
fn bounds_that_do_not_enclose() {
    assert_eq!(ffi::plain(&P, 1, 2, 100), Answer::refused(9));
    assert_eq!(ffi::built(&P, 1, 2, 4), Answer::refused(9));
    assert_eq!(ffi::built(&P, 1, 2, 3), Answer::refused(9));
    assert_eq!(ffi::lent(&P, 1, 2, &[], &[]), Answer::refused(9));
}

#[test]
fn sizes_of_files() {
    let check = |file: &[u8]| ffi::read(file, &mut [0; 8], &mut [0; 64], &mut [0; 64], &mut [0; 512]).number;
    let largest = random::any_model(&mut Random::new(702), 64, 8).file();
    assert_eq!((largest.len(), check(&largest)), (4248, 0));
    let with_counts = |n, d| {
        let mut file = largest.clone();
        (file[0], file[2]) = (n, d);
        check(&file)
    };
    assert_eq!(with_counts(65, 8), 2);
    assert_eq!(with_counts(65, 9), 2);
    assert_eq!(with_counts(64, 9), 3);
    assert_eq!((check(&P[..53]), check(&P[..15])), (5, 1));
    assert_eq!((check(&old_p()[..51]), check(&old_p()[..15])), (5, 1));
}

#[test]
fn sizes_of_lent_trees() {
    assert_eq!(ffi::lent(&P, 0, 3, &[1; 1023], &[]), Answer::judged(3, 1024));
    assert_eq!(ffi::lent(&P, 0, 3, &[1; 1024], &[]), Answer::refused(11));
    assert_eq!(ffi::lent(&P, 0, 3, &[], &[1; 1023]).count, 1024);
    assert_eq!(ffi::lent(&P, 0, 3, &[], &[1; 1024]), Answer::refused(11));
}
