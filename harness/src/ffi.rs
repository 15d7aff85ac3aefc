//! The engine's operations: declarations that follow `include/solver.h`, and a safe function for each.
//! The engine asks nothing of its callers but valid slices of which none overlaps one that is written, as Rust's references are.

use crate::random::full;
use crate::reference::model::Parts;
use crate::Answer;

mod raw {
    extern "C" {
        pub fn solver_read(
            file: *const u8,
            file_len: usize,
            signs: *mut u8,
            signs_len: usize,
            kinds: *mut u8,
            kinds_len: usize,
            thresholds: *mut u8,
            thresholds_len: usize,
            words: *mut u64,
            words_len: usize,
            answer: *mut u64,
        );
        pub fn solver_write(
            n: usize,
            d: usize,
            signs: *const u8,
            signs_len: usize,
            kinds: *const u8,
            kinds_len: usize,
            thresholds: *const u8,
            thresholds_len: usize,
            words: *const u64,
            words_len: usize,
            buffer: *mut u8,
            buffer_len: usize,
            answer: *mut u64,
        );
        pub fn solver_query(
            file: *const u8,
            file_len: usize,
            arguments: *const u64,
            arguments_len: usize,
            answer: *mut u64,
        );
        pub fn solver_page(
            file: *const u8,
            file_len: usize,
            buffer: *mut u8,
            buffer_len: usize,
            answer: *mut u64,
        );
        pub fn solver_one_sided(
            file: *const u8,
            file_len: usize,
            v: *const u8,
            v_len: usize,
            words: *mut u64,
            words_len: usize,
            answer: *mut u64,
        );
        pub fn solver_join(
            first: *const u8,
            first_len: usize,
            second: *const u8,
            second_len: usize,
            buffer: *mut u8,
            buffer_len: usize,
            answer: *mut u64,
        );
    }
}

/// Calls a function that fills six words. They begin as no answer has them, so that a word left out shows.
fn answered(call: impl FnOnce(*mut u64)) -> Answer {
    let mut words = [0x5a5a_5a5a_5a5a_5a5a_u64; 6];
    call(words.as_mut_ptr());
    let [number, set, count, length, lines, levels] = words;
    Answer { number, set, count, length, lines, levels }
}

pub fn read(
    file: &[u8],
    signs: &mut [u8],
    kinds: &mut [u8],
    thresholds: &mut [u8],
    words: &mut [u64],
) -> Answer {
    answered(|answer| unsafe {
        raw::solver_read(
            file.as_ptr(),
            file.len(),
            signs.as_mut_ptr(),
            signs.len(),
            kinds.as_mut_ptr(),
            kinds.len(),
            thresholds.as_mut_ptr(),
            thresholds.len(),
            words.as_mut_ptr(),
            words.len(),
            answer,
        )
    })
}

pub fn write(
    n: usize,
    d: usize,
    signs: &[u8],
    kinds: &[u8],
    thresholds: &[u8],
    words: &[u64],
    buffer: &mut [u8],
) -> Answer {
    answered(|answer| unsafe {
        raw::solver_write(
            n,
            d,
            signs.as_ptr(),
            signs.len(),
            kinds.as_ptr(),
            kinds.len(),
            thresholds.as_ptr(),
            thresholds.len(),
            words.as_ptr(),
            words.len(),
            buffer.as_mut_ptr(),
            buffer.len(),
            answer,
        )
    })
}

pub fn query(file: &[u8], arguments: &[u64]) -> Answer {
    answered(|answer| unsafe {
        raw::solver_query(file.as_ptr(), file.len(), arguments.as_ptr(), arguments.len(), answer)
    })
}

/// The three judgings, under the names that an engine's library has for them. The one by built-in trees has a ceiling, or none where the
/// parentheses are empty.
macro_rules! judgings {
    ($plain:ident, $built:ident($($ceiling:ident)?), $lent:ident) => {
        extern "C" {
            fn $plain(file: *const u8, file_len: usize, a: u64, b: u64, ceiling: u64, answer: *mut u64);
            fn $built(file: *const u8, file_len: usize, a: u64, b: u64, $($ceiling: u64,)? answer: *mut u64);
            fn $lent(
                file: *const u8,
                file_len: usize,
                a: u64,
                b: u64,
                u: *const u8,
                u_len: usize,
                v: *const u8,
                v_len: usize,
                answer: *mut u64,
            );
        }

        pub fn plain(file: &[u8], a: u64, b: u64, ceiling: u64) -> Answer {
            answered(|answer| unsafe { $plain(file.as_ptr(), file.len(), a, b, ceiling, answer) })
        }

        pub fn built(file: &[u8], a: u64, b: u64, $($ceiling: u64)?) -> Answer {
            answered(|answer| unsafe { $built(file.as_ptr(), file.len(), a, b, $($ceiling,)? answer) })
        }

        pub fn lent(file: &[u8], a: u64, b: u64, u: &[u8], v: &[u8]) -> Answer {
            answered(|answer| unsafe {
                $lent(file.as_ptr(), file.len(), a, b, u.as_ptr(), u.len(), v.as_ptr(), v.len(), answer)
            })
        }
    };
}

judgings!(solver_plain, solver_built(ceiling), solver_lent);

/// The judgings of an earlier engine, which `earlier.sh` links under other names.
#[cfg(earlier_engine)]
pub mod earlier {
    use super::{answered, Answer};

    #[cfg(not(earlier_without_ceiling))]
    judgings!(earlier_plain, earlier_built(ceiling), earlier_lent);
    #[cfg(earlier_without_ceiling)]
    judgings!(earlier_plain, earlier_built(), earlier_lent);
}

pub fn page(file: &[u8], buffer: &mut [u8]) -> Answer {
    answered(|answer| unsafe {
        raw::solver_page(file.as_ptr(), file.len(), buffer.as_mut_ptr(), buffer.len(), answer)
    })
}

/// The page of a file that is not refused.
pub fn page_of(file: &[u8]) -> String {
    let mut buffer = vec![0; 2665];
    let answer = page(file, &mut buffer);
    assert_eq!(answer.number, 0);
    buffer.truncate(answer.length as usize);
    String::from_utf8(buffer).expect("it is ASCII")
}

/// The share on the page of a file that is not refused.
pub fn page_share(file: &[u8]) -> u64 {
    page_of(file)[24..28].trim_start().parse().expect("it is a number")
}

pub fn one_sided(file: &[u8], v: &[u8], words: &mut [u64]) -> Answer {
    answered(|answer| unsafe {
        raw::solver_one_sided(
            file.as_ptr(),
            file.len(),
            v.as_ptr(),
            v.len(),
            words.as_mut_ptr(),
            words.len(),
            answer,
        )
    })
}

pub fn join(first: &[u8], second: &[u8], buffer: &mut [u8]) -> Answer {
    answered(|answer| unsafe {
        raw::solver_join(
            first.as_ptr(),
            first.len(),
            second.as_ptr(),
            second.len(),
            buffer.as_mut_ptr(),
            buffer.len(),
            answer,
        )
    })
}

/// What reading fills of a file of n lines and d levels, in slices just as long as it needs.
pub fn parts_read(file: &[u8], n: usize, d: usize) -> Parts {
    let mut parts =
        Parts { signs: vec![9; d], kinds: vec![9; n], thresholds: vec![9; n], words: vec![9; n * d] };
    let Parts { signs, kinds, thresholds, words } = &mut parts;
    let answer = read(file, signs, kinds, thresholds, words);
    assert_eq!((answer.number, answer.lines, answer.levels), (0, n as u64, d as u64));
    parts
}

/// What every operation that takes a file answers, with nothing else to refuse if the file has n lines and d levels and the page's
/// ceiling suffices: reading, one query, the four judgings, the page, and joining it with itself where that makes 64 lines at most.
pub fn all_of_file(file: &[u8], n: usize, d: usize) -> Vec<Answer> {
    let all = full(n);
    let mut answers = vec![
        read(file, &mut [0; 8], &mut [0; 64], &mut [0; 64], &mut [0; 512]),
        query(file, &vec![0; d]),
        plain(file, 0, all, u64::MAX),
        built(file, 0, all, u64::MAX),
        lent(file, 0, all, &[], &[]),
        one_sided(file, &[], &mut [0; 2]),
        page(file, &mut [0; 2665]),
    ];
    if 2 * n <= 64 {
        answers.push(join(file, file, &mut [0; 4248]));
    }
    answers
}
