//! The one-sided route by the engine's own algorithm: stages over a queue, spans of leaves for each variable, arguments by links between the gaps, and of a
//! right side only the lines that are not in it yet.

use super::{answer, full_set, Found, Lent, Model, MAX_GAPS, MAX_LEVELS};
use crate::Answer;

const LEAVES: usize = MAX_GAPS + 1;
const VARIABLES: usize = MAX_GAPS + 2;

/// For each gap the one before it that is over it, by numbers from 1, and the next that is over it, by places from 0.
struct Links {
    before: [u16; VARIABLES],
    over: [u16; LEAVES],
}

impl Links {
    fn of(v: &[u8]) -> Links {
        let mut links = Links { before: [0; VARIABLES], over: [0; LEAVES] };
        for i in 0..v.len() {
            links.before[i + 1] = links.block_start(v, v[i] as usize, i) as u16;
        }
        for i in (0..v.len()).rev() {
            links.over[i] = (links.block_end(v, v[i] as usize, i + 1) - 1) as u16;
        }
        links
    }

    fn block_start(&self, v: &[u8], height: usize, mut at: usize) -> usize {
        while at > 0 && v[at - 1] as usize <= height {
            at = self.before[at] as usize;
        }
        at
    }

    fn block_end(&self, v: &[u8], height: usize, mut at: usize) -> usize {
        while at < v.len() && v[at] as usize <= height {
            at = self.over[at] as usize;
        }
        at + 1
    }

    fn arguments(&self, m: Model, v: &[u8], i: usize) -> [usize; MAX_LEVELS] {
        let (mut start, mut last, mut height) = (i, i, 0);
        let mut args = [0; MAX_LEVELS];
        for (k, arg) in args.iter_mut().enumerate().take(m.levels) {
            if m.is_greatest(k) {
                start = self.block_start(v, height, start);
                *arg = start;
                height += 1;
            } else {
                *arg = self.block_end(v, height, last);
                last = *arg - 1;
            }
        }
        args
    }
}

/// For each variable, the first leaf that reads it and the one after the last.
struct Spans {
    from: [u16; VARIABLES],
    to: [u16; VARIABLES],
}

impl Spans {
    fn of(m: Model, v: &[u8], links: &Links) -> Spans {
        let mut spans = Spans { from: [0; VARIABLES], to: [0; VARIABLES] };
        let leaves = v.len() + 1;
        for y in 0..=leaves {
            spans.from[y] = y as u16;
            spans.to[y] = (y + 1).min(leaves) as u16;
        }
        for i in 0..leaves {
            for &y in &links.arguments(m, v, i)[..m.levels] {
                spans.from[y] = spans.from[y].min(i as u16);
                spans.to[y] = spans.to[y].max(i as u16 + 1);
            }
        }
        spans
    }
}

fn right_side(m: Model, v: &[u8], links: &Links, state: &[u64; VARIABLES], i: usize) -> u64 {
    let (bound, part) = (state[i], state[i + 1]);
    let lines = bound & !part;
    if lines == 0 {
        return part;
    }
    let args = links.arguments(m, v, i);
    let mut ys = [0; MAX_LEVELS];
    for (y, &arg) in ys.iter_mut().zip(&args).take(m.levels) {
        *y = state[arg];
    }
    part | m.query_lines(&ys, lines)
}

fn stages(m: Model, v: &[u8], words: &mut [u64]) -> Found {
    let leaves = v.len() + 1;
    let links = Links::of(v);
    let spans = Spans::of(m, v, &links);
    let mut state = [0; VARIABLES];
    state[0] = full_set(m.lines);
    words[0] = state[0];
    let mut due = [true; LEAVES];
    let mut queue: [u16; LEAVES] = std::array::from_fn(|i| i as u16);
    let mut changed = [0u16; LEAVES];
    let (mut number, mut count) = (leaves, 0);
    loop {
        count += number as u64;
        let mut others = 0;
        for &leaf in &queue[..number] {
            let i = leaf as usize;
            let value = right_side(m, v, &links, &state, i);
            due[i] = false;
            words[i + 1] = value;
            if state[i + 1] != value {
                changed[others] = leaf + 1;
                others += 1;
            }
        }
        if others == 0 {
            return Found { set: words[leaves], count };
        }
        number = 0;
        for &y in &changed[..others] {
            let y = y as usize;
            state[y] = words[y];
            for leaf in spans.from[y]..spans.to[y] {
                if !due[leaf as usize] {
                    due[leaf as usize] = true;
                    queue[number] = leaf;
                    number += 1;
                }
            }
        }
    }
}

pub fn one_sided(file: &[u8], v: &[u8], words: &mut [u64]) -> Answer {
    answer(Model::check(file).and_then(|m| {
        Lent::one_of(m, v, words)?;
        Ok(stages(m, v, words))
    }))
}
