//! Reading and writing against the reference: answers, and every byte and word that was lent.

use harness::lending::{file_length, made_both, Lent, Seen};
use harness::random::{self, Random, Written, FILE_DAMAGES, WRITTEN_DAMAGES};
use harness::reference::model::Parts;
use harness::{ffi, reference, Answer};

/// Reads a file into slices of these lengths, by the engine and by the reference, and compares all they leave.
fn read_both(random: &mut Random, file: &[u8], lengths: [usize; 4]) -> Answer {
    let mut bytes =
        [lengths[0], lengths[1], lengths[2]].map(|len| Lent::new(len, |count| random.bytes(count)));
    let mut words = Lent::new(lengths[3], |count| random.words(count));
    let mut expected = (bytes.clone(), words.clone());
    let [signs, kinds, thresholds] = bytes.each_mut().map(Lent::slice);
    let answer = ffi::read(file, signs, kinds, thresholds, words.slice());
    let [signs, kinds, thresholds] = expected.0.each_mut().map(Lent::slice);
    let expected_answer = reference::read(file, signs, kinds, thresholds, expected.1.slice());
    assert_eq!(answer, expected_answer, "{lengths:?} {file:?}");
    assert_eq!((bytes, words), expected, "{lengths:?} {file:?}");
    answer
}

/// Slices as long as those of the largest model.
const LARGEST: [usize; 4] = [8, 64, 64, 512];

/// Writes into a buffer of this length, by the engine and by the reference, and compares all they leave.
fn write_both(random: &mut Random, written: &Written, length: usize) -> Answer {
    let Written { n, d, parts: Parts { signs, kinds, thresholds, words } } = written;
    made_both(
        random,
        written,
        length,
        |buffer| ffi::write(*n, *d, signs, kinds, thresholds, words, buffer),
        |buffer| reference::write(*n, *d, signs, kinds, thresholds, words, buffer),
    )
}

fn some_written(random: &mut Random, n: usize, d: usize) -> Written {
    Written { n, d, parts: random::any_model(random, n, d).parts() }
}

#[test]
fn every_size_is_read() {
    let mut random = Random::new(201);
    for n in 1..=64 {
        for d in 1..=8 {
            let file = random::some_file(&mut random, n, d);
            for extra in [0, random.between(1, 40)] {
                let lengths = [d + extra, n + extra, n + extra, n * d + extra];
                let answer = read_both(&mut random, &file, lengths);
                assert_eq!((answer.number, answer.lines, answer.levels), (0, n as u64, d as u64));
            }
        }
    }
}

#[test]
fn short_slices_are_refused_when_reading() {
    let mut random = Random::new(202);
    for _ in 0..500 {
        let (n, d) = (random.between(1, 64), random.between(1, 8));
        let file = random::some_file(&mut random, n, d);
        let exact = [d, n, n, n * d];
        for short in 0..4 {
            for length in [0, exact[short] - 1, random.between(0, exact[short] - 1)] {
                let mut lengths = exact.map(|length| length + random.between(0, 3));
                lengths[short] = length;
                assert_eq!(read_both(&mut random, &file, lengths).number, 12);
            }
        }
    }
}

#[test]
fn each_damage_of_a_file_has_its_number() {
    let mut random = Random::new(203);
    for _ in 0..300 {
        for number in FILE_DAMAGES {
            let file = random::some_damaged_file(&mut random, number);
            assert_eq!(read_both(&mut random, &file, LARGEST).number, number, "{file:?}");
        }
    }
}

#[test]
fn the_first_of_several_refusals_answers_when_reading() {
    let mut random = Random::new(204);
    let mut seen = Seen::default();
    for _ in 0..20_000 {
        let (n, d) = random::mostly_small_size(&mut random);
        let mut file = random::some_file(&mut random, n, d);
        random::damage_file_often(&mut random, &mut file, n, d);
        let lengths = if random.chance(30) { LARGEST.map(|most| random.between(0, most)) } else { LARGEST };
        seen.note(read_both(&mut random, &file, lengths));
    }
    seen.assert_each(&FILE_DAMAGES, 500);
}

#[test]
fn bytes_at_random_are_read_as_the_reference_does() {
    let mut random = Random::new(205);
    let mut seen = Seen::default();
    for _ in 0..20_000 {
        let (n, d) = (random.between(0, 3), random.between(0, 3));
        let records = n * random.between(1, 2);
        let mut file = vec![n as u8, 0, d as u8, 0, 16, 0, 0, 0];
        file.extend([16 + d as u8, 0, 0, 0, (16 + d + records) as u8, 0, 0, 0]);
        // Bytes up to 1, 2 or 3 may be signs, kinds and thresholds; words with one such byte may select lines there are.
        let most = [1, 1, 2, 3, 255][random.between(0, 4)];
        file.extend((0..d).map(|_| random.between(0, most.min(2)) as u8));
        file.extend((0..records).map(|_| random.between(0, most) as u8));
        for _ in 0..n * d {
            let word = if most == 255 { random.word() } else { random.between(0, most) as u64 };
            file.extend(word.to_le_bytes());
        }
        if random.chance(20) {
            file.truncate(random.between(0, file.len()));
        }
        seen.note(read_both(&mut random, &file, LARGEST));
    }
    seen.assert_each(&[0, 1, 2, 3, 5, 6, 7, 14], 20);
}

#[test]
fn every_size_is_written() {
    let mut random = Random::new(206);
    for n in 1..=64 {
        for d in 1..=8 {
            let written = some_written(&mut random, n, d);
            let length = file_length(n, d);
            for extra in [0, 1, random.between(2, 5000)] {
                let answer = write_both(&mut random, &written, length + extra);
                assert_eq!((answer.number, answer.length), (0, length as u64));
            }
            for short in [length - 1, random.between(0, length - 1), 0] {
                assert_eq!(write_both(&mut random, &written, short).number, 12);
            }
        }
    }
}

#[test]
fn each_damage_has_its_number_when_writing() {
    let mut random = Random::new(207);
    for _ in 0..300 {
        for number in WRITTEN_DAMAGES {
            let (n, d) = (random.between(1, 63), random.between(1, 8));
            let mut written = some_written(&mut random, n, d);
            random::damage_written(&mut random, &mut written, number);
            assert_eq!(write_both(&mut random, &written, 4248).number, number, "{written:?}");
        }
    }
}

#[test]
fn the_first_of_several_refusals_answers_when_writing() {
    let mut random = Random::new(208);
    let mut seen = Seen::default();
    for _ in 0..20_000 {
        let (n, d) = random::mostly_small_size(&mut random);
        let mut written = some_written(&mut random, n, d);
        for number in WRITTEN_DAMAGES {
            if random.chance(25) {
                random::damage_written(&mut random, &mut written, number);
            }
        }
        let length = if random.chance(50) { random.between(0, file_length(n, d)) } else { 4248 };
        seen.note(write_both(&mut random, &written, length));
    }
    seen.assert_each(&[0, 2, 3, 13, 6, 7, 14, 12], 500);
}

#[test]
fn what_was_written_is_read_back() {
    let mut random = Random::new(209);
    for n in 1..=64 {
        for d in 1..=8 {
            let Written { parts, .. } = some_written(&mut random, n, d);
            let mut file = vec![0xee; file_length(n, d)];
            let answer =
                ffi::write(n, d, &parts.signs, &parts.kinds, &parts.thresholds, &parts.words, &mut file);
            assert_eq!(answer.length, file.len() as u64);
            assert_eq!(ffi::parts_read(&file, n, d), parts);
        }
    }
}

#[test]
fn what_was_read_is_written_back_in_the_new_layout() {
    let mut random = Random::new(210);
    for n in 1..=64 {
        for d in 1..=8 {
            let model = random::any_model(&mut random, n, d);
            let file = random::file(&mut random, &model);
            let Parts { signs, kinds, thresholds, words } = ffi::parts_read(&file, n, d);
            let mut back = vec![0xee; file_length(n, d)];
            let answer = ffi::write(n, d, &signs, &kinds, &thresholds, &words, &mut back);
            assert_eq!(answer.length, back.len() as u64);
            assert_eq!(back, model.file());
        }
    }
}
