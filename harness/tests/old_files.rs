//! Old files, without thresholds (request W4), in every operation: each answers as it does to the new file of the same model.

use harness::random::{self, full, Random};
use harness::reference::{forecast, Kind, Model};
use harness::{ffi, Answer, PROGRAM_CEILING};

/// A random model that has an old file.
fn model(random: &mut Random, n: usize, d: usize) -> Model {
    loop {
        let model = random::any_model(random, n, d);
        if !model.has_votes() {
            return model;
        }
    }
}

/// The number that every operation on a file answers.
fn number(file: &[u8], n: usize, d: usize) -> u64 {
    let answers = ffi::all_of_file(file, n, d);
    for answer in &answers {
        assert_eq!(answer.number, answers[0].number, "{answers:?} {file:?}");
    }
    answers[0].number
}

#[test]
fn every_operation_answers_as_to_the_new_file() {
    let mut random = Random::new(1301);
    let (mut judged, mut refused) = (0, 0);
    for n in 1..=64 {
        for d in 1..=8 {
            let model = model(&mut random, n, d);
            let (old, new) = (model.old_file(), model.file());
            assert_eq!((old.len(), new.len()), (16 + d + n + 8 * n * d, 16 + d + 2 * n + 8 * n * d));

            // Both fill the same entries and leave those behind them.
            let fill =
                (random.bytes(8 + 3), random.bytes(64 + 3), random.bytes(64 + 3), random.words(512 + 3));
            let read = |file: &[u8]| {
                let (mut signs, mut kinds, mut thresholds, mut words) = fill.clone();
                let answer = ffi::read(file, &mut signs, &mut kinds, &mut thresholds, &mut words);
                (answer, signs, kinds, thresholds, words)
            };
            let from_old = read(&old);
            assert_eq!(from_old, read(&new));
            let (answer, signs, kinds, thresholds, words) = from_old;
            assert_eq!(answer, Answer { lines: n as u64, levels: d as u64, ..Answer::default() });
            assert_eq!((&thresholds[..n], &thresholds[n..]), (&vec![0; n][..], &fill.2[n..]));
            let mut written = vec![9; new.len() + 1];
            let answer =
                ffi::write(n, d, &signs[..d], &kinds[..n], &thresholds[..n], &words[..n * d], &mut written);
            assert_eq!(answer, Answer { length: new.len() as u64, ..Answer::default() });
            assert_eq!((&written[..new.len()], written[new.len()]), (&new[..], 9));

            let mut joined = [vec![7; 4300], vec![7; 4300]];
            let answers = [ffi::join(&old, &old, &mut joined[0]), ffi::join(&new, &new, &mut joined[1])];
            assert_eq!((answers[0], &joined[0]), (answers[1], &joined[1]), "{model:?}");

            let xs: Vec<u64> = random.words(d).iter().map(|word| word & full(n)).collect();
            assert_eq!(ffi::query(&old, &xs), ffi::query(&new, &xs), "{xs:?} {model:?}");
            let (a, b) = random::bounds(&mut random, n);
            assert_eq!(ffi::plain(&old, a, b, 5000), ffi::plain(&new, a, b, 5000), "{a} {b} {model:?}");
            let u = random::tree(&mut random, model.least_levels(), 40);
            let v = random::tree(&mut random, model.greatest_levels(), 40);
            assert_eq!(ffi::lent(&old, a, b, &u, &v), ffi::lent(&new, a, b, &u, &v), "{a} {b} {model:?}");
            let forecast = forecast(&model);
            let built = |ceiling| [&old, &new].map(|file| ffi::built(file, a, b, ceiling));
            assert_eq!(built(forecast - 1), [Answer::over(forecast); 2], "{a} {b} {model:?}");
            let pages = || {
                let mut pages = [vec![7; 2700], vec![7; 2700]];
                let answers = [ffi::page(&old, &mut pages[0]), ffi::page(&new, &mut pages[1])];
                assert_eq!((answers[0], &pages[0]), (answers[1], &pages[1]), "{model:?}");
                answers[0]
            };
            if forecast <= 200_000 {
                let [judged_old, judged_new] = built(forecast);
                assert_eq!((judged_old, judged_old.number), (judged_new, 0), "{a} {b} {model:?}");
                assert_eq!(pages().number, 0);
                judged += 1;
            } else if forecast > PROGRAM_CEILING {
                assert_eq!(pages(), Answer::over(forecast));
                refused += 1;
            }
        }
    }
    assert!(
        judged > 300 && refused > 20,
        "{judged} models were judged by built-in trees, {refused} pages refused"
    );
}

#[test]
fn kinds_that_each_layout_has() {
    let mut random = Random::new(1302);
    for _ in 0..50 {
        let (n, d) = (random.between(1, 64), random.between(1, 3));
        let model = model(&mut random, n, d);
        let (old, new) = (model.old_file(), model.file());
        for i in [0, n - 1, random.between(0, n - 1)] {
            for kind in [0, 1, 2, 3, 4, 255] {
                let (mut old, mut new) = (old.clone(), new.clone());
                old[16 + d + i] = kind;
                new[16 + d + 2 * i] = kind;
                assert_eq!(number(&old, n, d), if kind <= 1 { 0 } else { 6 }, "kind {kind} of line {i}");
                // A vote needs a threshold.
                let expected = [0, 0, 14].get(kind as usize).copied().unwrap_or(6);
                assert_eq!(number(&new, n, d), expected, "kind {kind} of line {i}");
            }
        }
    }
}

#[test]
fn third_offsets_and_lengths_of_each_layout() {
    let mut random = Random::new(1303);
    for n in [1, 2, 3, 31, 32, 63, 64] {
        for d in [1, 2, 8] {
            // No operands and one sign, so that every operation is done soon.
            let model = Model {
                greatest: vec![false; d],
                kinds: (0..n).map(|_| [Kind::Any, Kind::All][random.between(0, 1)]).collect(),
                operands: vec![Vec::new(); n],
            };
            let at = |file: &[u8], offset: usize| {
                let mut file = file.to_vec();
                file[12..16].copy_from_slice(&(offset as u32).to_le_bytes());
                file
            };
            let (old, new) = (model.old_file(), model.file());
            let right = [16 + d + n, 16 + d + 2 * n];
            for offset in (0..16 + d + 3 * n + 2).chain(right.map(|offset| offset + 256)) {
                for (file, own) in [(&old, right[0]), (&new, right[1])] {
                    let expected = if !right.contains(&offset) {
                        4
                    } else if offset == own {
                        0
                    } else {
                        // The file has the other layout's offset, and not its length.
                        5
                    };
                    assert_eq!(
                        number(&at(file, offset), n, d),
                        expected,
                        "{offset} for {n} lines, {d} levels"
                    );
                }
            }
            for (file, other) in [(&old, &new), (&new, &old)] {
                for length in [file.len() - 1, file.len(), file.len() + 1, other.len()] {
                    let mut file = file.clone();
                    let whole = length == file.len();
                    file.resize(length, 0);
                    assert_eq!(number(&file, n, d), if whole { 0 } else { 5 }, "{length} bytes");
                }
            }
        }
    }
}

#[test]
fn the_largest_files() {
    // All least, so that the built-in trees are small.
    let model =
        Model { greatest: vec![false; 8], kinds: vec![Kind::All; 64], operands: vec![Vec::new(); 64] };
    for (file, length) in [(model.file(), 4248), (model.old_file(), 4184)] {
        assert_eq!((file.len(), number(&file, 64, 8)), (length, 0));
        for longer in [length + 1, length + 2, 4248 + 64, 4184 + 64 + 1] {
            let mut file = file.clone();
            file.resize(longer, 0);
            assert_eq!(number(&file, 64, 8), 5, "{longer} bytes");
        }
    }
}
