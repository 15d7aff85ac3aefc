//! Spare lines (request W7): the share covers the lines that can be met from line 0, and no other. Which lines the engine meets shows in
//! models of which one line alone is good: their share is 0 unless that line is met.

use std::ops::Range;

use harness::ffi::{self, page_of, page_share};
use harness::random::{self, full, Random};
use harness::reference::met::{chain, with_one_good_line, without_spares};
use harness::reference::{self, good_lines, met_lines, page_text, set_of, word_of, Kind, Model, Operand};

/// The lines that the engine meets in a model with levels of both signs.
fn met_by_engine(random: &mut Random, model: &Model) -> u64 {
    let shares: Vec<u64> = (0..model.lines())
        .map(|line| {
            let votes = random.chance(50);
            page_share(&random::file(random, &with_one_good_line(model, line, votes)))
        })
        .collect();
    let met: Vec<bool> = shares.iter().map(|&share| share > 0).collect();
    let lines = met.iter().filter(|&&is_met| is_met).count();
    for (line, &share) in shares.iter().enumerate() {
        let expected = if met[line] { reference::share(1, lines) } else { 0 };
        assert_eq!(share, expected, "line {line} alone is good, {lines} are met: {model:?}");
    }
    word_of(&met)
}

fn word(lines: &[usize]) -> u64 {
    lines.iter().map(|line| 1 << line).sum()
}

/// The orders of 64 lines in which chains are tried: up, down, and any.
fn orders(random: &mut Random) -> [Vec<usize>; 3] {
    let up: Vec<usize> = (0..64).collect();
    let down = [0].into_iter().chain((1..64).rev()).collect();
    [up, down, random::order_from_0(random, 64)]
}

#[test]
fn chains_of_64_lines_are_met_to_their_end() {
    let mut random = Random::new(1501);
    for d in 2..=4 {
        for first_greatest in [false, true] {
            for order in orders(&mut random) {
                let model = chain(&order, &random::alternating(d, first_greatest));
                assert_eq!(met_by_engine(&mut random, &model), full(64), "{order:?}");
            }
        }
    }
    for order in orders(&mut random) {
        let last = order[63];
        // At one level or eight of one sign, which decide all lines but the last one by themselves; that one is all of none, or any of none, and
        // judged otherwise.
        for (greatest, kind, share) in [(false, Kind::All, 16), (true, Kind::Any, 984)] {
            for d in [1, 8] {
                let mut model = chain(&order, &vec![greatest; d]);
                for &line in &order[..63] {
                    model.decide_by_itself(line, greatest, false);
                }
                model.kinds[last] = kind;
                assert_eq!(page_share(&random::file(&mut random, &model)), share, "{order:?}");
            }
        }
        // At seven levels of both signs, where judging takes long, the last line alone. One level is of the other sign than the rest: else the
        // forecast would be over the page's ceiling.
        for (least, greatest) in [(1, 6), (6, 1)] {
            let model = chain(&order, &random::signs_of(&mut random, least, greatest));
            assert_eq!(page_share(&with_one_good_line(&model, last, true).file()), 16, "{order:?}");
        }
    }
}

#[test]
fn chains_are_met_up_to_where_they_are_cut() {
    let mut random = Random::new(1502);
    for order in orders(&mut random) {
        for cut in 1..64 {
            let (met, spare) = order.split_at(cut);
            let mut model = chain(&order, &[false, true]);
            model.operands[met[cut - 1]].clear();
            // Either part ends, or goes round, or leads back to any of the lines that are met.
            for part in [met, spare] {
                let lines = [None, Some(part[0]), Some(met[random.between(0, cut - 1)])];
                if let Some(line) = lines[random.between(0, 2)] {
                    let last = part[part.len() - 1];
                    model.operands[last].push(Operand { level: random.between(0, 1), line });
                }
            }
            assert_eq!(met_by_engine(&mut random, &model), word(met), "cut behind {cut}: {model:?}");
        }
    }
}

#[test]
fn rings_are_met_whole_or_not_at_all() {
    let mut random = Random::new(1503);
    let mut several = 0;
    for _ in 0..100 {
        let (n, d) = (random.between(2, 64), random.between(2, 3));
        let order = random::order_from_0(&mut random, n);
        // The lines in rings, in their order; a line of a ring may also read one of the rings before it.
        let mut model = chain(&order, &random::alternating(d, false));
        let (mut begin, mut rings) = (0, Vec::new());
        while begin < n {
            let end = random.between(begin + 1, n);
            model.operands[order[end - 1]] =
                vec![Operand { level: random.between(0, d - 1), line: order[begin] }];
            if begin > 0 && random.chance(70) {
                let from = order[random.between(begin, end - 1)];
                let before =
                    Operand { level: random.between(0, d - 1), line: order[random.between(0, begin - 1)] };
                model.operands[from].push(before);
                model.operands[from].sort();
            }
            rings.push(&order[begin..end]);
            begin = end;
        }
        assert_eq!(met_by_engine(&mut random, &model), word(rings[0]), "{model:?}");
        // One operand more, from the first ring to the last, and that one is met too, with those that it leads to.
        let last = rings[rings.len() - 1];
        let to = Operand { level: random.between(0, d - 1), line: last[random.between(0, last.len() - 1)] };
        let from = rings[0][random.between(0, rings[0].len() - 1)];
        if !model.operands[from].contains(&to) {
            model.operands[from].push(to);
        }
        let met = met_by_engine(&mut random, &model);
        assert_eq!(met & word(last), word(last), "{model:?}");
        assert_eq!(met, word_of(&met_lines(&model)), "{model:?}");
        several += (rings.len() > 2) as usize;
    }
    assert!(several > 50, "only {several} models had three rings or more");
}

#[test]
fn line_0_without_operands_is_met_alone() {
    let mut random = Random::new(1504);
    let (mut good_spares, mut other_spares) = (0, 0);
    for (kind, share) in [(Kind::Any, 0), (Kind::All, 1000)] {
        for spares in 0..64 {
            let d = random.between(1, 3);
            let signs = random::signs(&mut random, d);
            let model = random::with_spares(&mut random, &Model::of(&signs, &[(kind, &[])]), spares);
            let file = random::file(&mut random, &model);
            assert_eq!(page_share(&file), share, "{model:?}");
            let good = (ffi::built(&file, 0, full(1 + spares), u64::MAX).set >> 1).count_ones() as usize;
            good_spares += good;
            other_spares += spares - good;
        }
    }
    assert!(good_spares > 1000 && other_spares > 1000, "{good_spares} good spares, {other_spares} others");
}

#[test]
fn line_0_of_itself_is_met_alone() {
    let mut random = Random::new(1505);
    for d in 1..=8 {
        for level in 1..=d {
            for first_greatest in [false, true] {
                let signs = random::alternating(d, first_greatest);
                for kind in [Kind::Any, Kind::All, Kind::AtLeast(1)] {
                    let alone = Model::of(&signs, &[(kind, &[(level, 0)])]);
                    for spares in [0, 1, random.between(2, 5)] {
                        let model = random::with_spares(&mut random, &alone, spares);
                        let share = page_share(&random::file(&mut random, &model));
                        assert_eq!(share, if signs[level - 1] { 1000 } else { 0 }, "{model:?}");
                    }
                }
            }
        }
    }
}

#[test]
fn lines_are_met_at_every_level_and_through_every_kind() {
    let mut random = Random::new(1506);
    // Line 1 is a vote or not. It reads line 2, which is good, and line 3, which is not; where one is enough, it is good itself.
    let kinds = [(Kind::Any, 750), (Kind::AtLeast(1), 750), (Kind::All, 250), (Kind::AtLeast(2), 250)];
    for d in 1..=8 {
        for (level, next_level) in (1..=d).flat_map(|level| (1..=d).map(move |next| (level, next))) {
            for first_greatest in [false, true] {
                for kind_0 in [Kind::Any, Kind::All, Kind::AtLeast(1)] {
                    for (kind_1, share) in kinds {
                        // Each line is read at one level alone.
                        let lines = [
                            (kind_0, &[(level, 1)][..]),
                            (kind_1, &[(next_level, 2), (next_level, 3)]),
                            (Kind::All, &[]),
                            (Kind::Any, &[]),
                        ];
                        let model = Model::of(&random::alternating(d, first_greatest), &lines);
                        for spares in [0, random.between(1, 3)] {
                            let longer = random::with_spares(&mut random, &model, spares);
                            let file = random::file(&mut random, &longer);
                            assert_eq!(page_share(&file), share, "{longer:?}");
                        }
                    }
                }
            }
        }
    }
}

#[test]
fn spares_of_every_sort_leave_the_share() {
    let mut random = Random::new(1507);
    let at_both_levels = |lines: Range<usize>| -> Vec<Operand> {
        (0..2).flat_map(|level| lines.clone().map(move |line| Operand { level, line })).collect()
    };
    for n in 1..=63 {
        let good = random.between(0, n);
        let model = random::model_with_good_lines(&mut random, n, good);
        for spares in [1, random.between(1, 64 - n), 64 - n] {
            // Lines of none, of all that are met, of all there are and of themselves, and a ring.
            let operands = |sort: usize, line: usize| match sort {
                0 => Vec::new(),
                1 => at_both_levels(0..n),
                2 => at_both_levels(0..n + spares),
                3 => at_both_levels(line..line + 1),
                _ => vec![Operand { level: line % 2, line: n + (line + 1 - n) % spares }],
            };
            for sort in 0..5 {
                for kind in [Kind::Any, Kind::All] {
                    let mut longer = model.clone();
                    for line in n..n + spares {
                        longer.kinds.push(kind);
                        longer.operands.push(operands(sort, line));
                    }
                    let share = page_share(&random::file(&mut random, &longer));
                    assert_eq!(share, reference::share(good, n), "{good} of {n}: {longer:?}");
                }
            }
        }
    }
}

#[test]
fn the_engine_meets_precisely_the_lines_that_paths_do() {
    let mut random = Random::new(1508);
    let (mut all, mut spare) = (0, 0);
    for n in 1..=64 {
        for d in [2, 2, 3, 3] {
            let mut model = random::sparse_model(&mut random, n, d);
            model.greatest = random::alternating(d, random.chance(50));
            let met = met_by_engine(&mut random, &model);
            assert_eq!(set_of(met, n), met_lines(&model), "{model:?}");
            *(if met == full(n) { &mut all } else { &mut spare }) += 1;
        }
    }
    assert!(all > 20 && spare > 150, "{all} models with all lines met, {spare} others");
}

#[test]
fn random_models_have_the_share_of_their_met_lines() {
    let mut random = Random::new(1509);
    let (mut all, mut spare, mut good_spares, mut other_shares) = (0, 0, 0, 0);
    for n in 1..=64 {
        for d in 1..=8 {
            let mut model = random::sparse_model(&mut random, n, d);
            if d > 4 {
                // One sign, so that judging is done soon.
                model.greatest = vec![random.chance(50); d];
            }
            let file = random::file(&mut random, &model);
            assert_eq!(page_of(&file), page_text(&model), "{model:?}");
            let (good, met) = (word_of(&good_lines(&model)), word_of(&met_lines(&model)));
            all += (met == full(n)) as usize;
            spare += (met != full(n)) as usize;
            good_spares += (good & !met != 0) as usize;
            other_shares += (page_share(&file) != reference::share(good.count_ones() as usize, n)) as usize;
            // The same without the spare lines.
            assert_eq!(page_share(&without_spares(&model).file()), page_share(&file), "{model:?}");
        }
    }
    assert!(all > 30 && spare > 300, "{all} models with all lines met, {spare} others");
    assert!(
        good_spares > 200 && other_shares > 150,
        "{good_spares} models with good spares, {other_shares} with another share if all lines counted"
    );
}
