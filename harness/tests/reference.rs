//! The reference's ways to one set against each other, and against document 01's numbers. The engine is not called.

use harness::random::{self, full, Case, Density, Random, Written, FILE_DAMAGES, WRITTEN_DAMAGES};
use harness::reference::forecast::{built_in_trees, forecasts, forecasts_around, Size};
use harness::reference::game::winning_lines;
use harness::reference::met::{chain, ends_of_paths, with_one_good_line, without_spares};
use harness::reference::model::{Model, Parts};
use harness::reference::nested::nested;
use harness::reference::plain::rounds;
use harness::reference::restricted::restricted;
use harness::reference::tree::lower_bound_model;
use harness::reference::votes::{exchanges, without_votes};
use harness::reference::{
    self, forecast, good_lines, met_lines, set_of, share_of, word_of, Kind, Operand, Set, Tree,
};
use harness::root;

/// The restricted set over the built-in trees.
fn over_built_in_trees(model: &Model, a: &[bool], b: &[bool]) -> (Vec<bool>, u64) {
    let [u, v] = built_in_trees(model);
    restricted(model, a, b, &u, &v)
}

#[test]
fn definition_game_rounds_and_universal_trees_give_one_set() {
    let mut random = Random::new(101);
    let (mut between, mut voted) = (0, 0);
    for _ in 0..4000 {
        let case = random::small_case(&mut random);
        let (a, b) = case.bounds();
        let set = nested(&case.model, &a, &b);
        assert_eq!(winning_lines(&case.model, &a, &b), set, "game {case:?}");
        assert_eq!(rounds(&case.model, &a, &b, u64::MAX).unwrap().0, set, "rounds {case:?}");
        assert_eq!(over_built_in_trees(&case.model, &a, &b).0, set, "trees {case:?}");
        between += (set != a && set != b) as usize;
        voted += (set != a && set != b && case.model.has_votes()) as usize;
    }
    assert!(
        between > 1000 && voted > 500,
        "{between} sets strictly between their bounds, {voted} with votes"
    );
}

#[test]
fn game_and_universal_trees_agree_on_more_lines() {
    let mut random = Random::new(102);
    let (mut between, mut voted) = (0, 0);
    for _ in 0..500 {
        let (n, d) = (random.between(5, 20), random.between(1, 4));
        let case = random::case(&mut random, n, d);
        let (a, b) = case.bounds();
        let set = winning_lines(&case.model, &a, &b);
        assert_eq!(over_built_in_trees(&case.model, &a, &b).0, set, "{case:?}");
        between += (set != a && set != b) as usize;
        voted += (set != a && set != b && case.model.has_votes()) as usize;
    }
    assert!(between > 100 && voted > 50, "{between} sets strictly between their bounds, {voted} with votes");
}

#[test]
fn two_of_three_by_hand() {
    // Line 0 votes on lines 1 and 2 at level 1 and line 1 at level 2; lines 1 and 2 are idle.
    let operands = [(0, 1), (0, 2), (1, 1)].map(|(level, line)| Operand { level, line }).to_vec();
    let model = |t| Model {
        greatest: vec![false, true],
        kinds: vec![Kind::AtLeast(t), Kind::All, Kind::Any],
        operands: vec![operands.clone(), vec![], vec![]],
    };
    // Line 1 at both levels counts twice.
    for (xs, count) in [
        ([0, 0], 0),
        ([1, 5], 0),
        ([2, 0], 1),
        ([4, 0], 1),
        ([0, 2], 1),
        ([2, 2], 2),
        ([6, 0], 2),
        ([4, 6], 2),
        ([6, 2], 3),
    ] {
        for t in 1..=3 {
            assert_eq!(model(t).query(&xs.map(|x| set_of(x, 3)))[0], count >= t, "{t} of {xs:?}");
        }
    }
    // Line 1 is good, line 2 is not: two of the three.
    for (t, good) in [(1, 3), (2, 3), (3, 2)] {
        let (a, b) = (set_of(0, 3), set_of(7, 3));
        assert_eq!(word_of(&nested(&model(t), &a, &b)), good);
        assert_eq!(word_of(&winning_lines(&model(t), &a, &b)), good);
    }
}

/// Sets of n lines, one for each of d levels.
fn arguments(random: &mut Random, n: usize, d: usize) -> Vec<Set> {
    random.words(d).iter().map(|&word| set_of(word, n)).collect()
}

#[test]
fn a_vote_of_one_is_any_and_a_vote_of_all_is_all() {
    let mut random = Random::new(107);
    for _ in 0..1000 {
        let case = random::small_case(&mut random);
        let mut voted = case.model.clone();
        for i in (0..voted.lines()).filter(|&i| !case.model.is_idle(i)) {
            voted.kinds[i] = match voted.kinds[i] {
                Kind::Any => Kind::AtLeast(1),
                Kind::All => Kind::AtLeast(voted.operands[i].len()),
                vote => vote,
            };
        }
        let xs = arguments(&mut random, voted.lines(), voted.levels());
        assert_eq!(voted.query(&xs), case.model.query(&xs), "{xs:?} {case:?}");
        let (a, b) = case.bounds();
        assert_eq!(winning_lines(&voted, &a, &b), nested(&case.model, &a, &b), "{case:?}");
    }
}

#[test]
fn votes_rewritten_into_any_and_all_lines_come_to_the_same() {
    let mut random = Random::new(108);
    let mut rewritten = 0;
    for _ in 0..2000 {
        let case = random::small_case(&mut random);
        let (a, b) = case.bounds();
        let (model, lower, upper) = without_votes(&case.model, &a, &b);
        assert!(!model.has_votes());
        // By rounds, so that no game is played.
        let (mut set, _) = rounds(&model, &lower, &upper, u64::MAX).unwrap();
        set.truncate(a.len());
        assert_eq!(set, nested(&case.model, &a, &b), "{case:?}");
        rewritten += (model.lines() > a.len()) as usize;
    }
    assert!(rewritten > 500, "only {rewritten} models got further lines");
}

#[test]
fn exchanges_sort() {
    let mut random = Random::new(111);
    let sorts = |mut set: Set| {
        let count = set.iter().filter(|&&one| one).count();
        for (first, second) in exchanges(set.len()) {
            (set[first], set[second]) = (set[first] || set[second], set[first] && set[second]);
        }
        set.iter().enumerate().all(|(place, &one)| one == (place < count))
    };
    for m in 1..=14 {
        assert!((0..1 << m).all(|word| sorts(set_of(word, m))), "{m} places");
    }
    for m in 15..=512 {
        let share = random.between(0, 100);
        assert!(sorts((0..m).map(|_| random.chance(share)).collect()), "{m} places");
    }
}

#[test]
fn a_dual_model_has_the_complement() {
    let mut random = Random::new(103);
    for _ in 0..200 {
        let (n, d) = (random.between(1, 30), random.between(1, 8));
        let case = random::case(&mut random, n, d);
        let (a, b) = case.bounds();
        let (outside_a, outside_b) = (set_of(full(n) & !case.a, n), set_of(full(n) & !case.b, n));
        let set = winning_lines(&case.model, &a, &b);
        let dual = winning_lines(&case.model.dual(), &outside_b, &outside_a);
        assert_eq!(word_of(&set) ^ word_of(&dual), full(n), "{case:?}");
        let xs = arguments(&mut random, n, d);
        let outside_xs: Vec<Set> = xs.iter().map(|x| x.iter().map(|set| !set).collect()).collect();
        let (set, dual) = (case.model.query(&xs), case.model.dual().query(&outside_xs));
        assert_eq!(word_of(&set) ^ word_of(&dual), full(n), "{xs:?} {case:?}");
    }
}

#[test]
fn a_joined_models_set_is_both_sets_side_by_side() {
    let mut random = Random::new(112);
    let mut between = 0;
    for _ in 0..2000 {
        let d = random.between(1, 4);
        let (n, m) = (random.between(1, 6 / d), random.between(1, 6 / d));
        let models = random::models_alike(&mut random, [n, m], d);
        let joined = models[0].joined(&models[1]);
        let cases = models.map(|model| {
            let bounds = random::bounds(&mut random, model.lines());
            Case::new(&mut random, model, bounds)
        });
        let [(a, b), (c, e)] = cases.each_ref().map(Case::bounds);
        let sets = [nested(&cases[0].model, &a, &b), nested(&cases[1].model, &c, &e)];
        let bounds = ([&a[..], &c].concat(), [&b[..], &e].concat());
        let both = sets.concat();
        assert_eq!(nested(&joined, &bounds.0, &bounds.1), both, "{cases:?}");
        assert_eq!(winning_lines(&joined, &bounds.0, &bounds.1), both, "game {cases:?}");
        assert_eq!(over_built_in_trees(&joined, &bounds.0, &bounds.1).0, both, "trees {cases:?}");
        between += (both != bounds.0 && both != bounds.1) as usize;

        let [xs, ys] = [n, m].map(|n| arguments(&mut random, n, d));
        let side_by_side: Vec<Set> = xs.iter().zip(&ys).map(|(x, y)| [&x[..], y].concat()).collect();
        let expected = [cases[0].model.query(&xs), cases[1].model.query(&ys)].concat();
        assert_eq!(joined.query(&side_by_side), expected, "{side_by_side:?} {cases:?}");
    }
    assert!(between > 500, "only {between} sets strictly between their bounds");
}

#[test]
fn a_joined_file_has_the_words_of_both_the_seconds_shifted() {
    let mut random = Random::new(113);
    for n in 1..=63 {
        let (m, d) = (random.between(1, 64 - n), random.between(1, 8));
        let models = random::models_alike(&mut random, [n, m], d);
        let [first, second] = models.each_ref().map(Model::parts);
        let shifted = second.words.iter().map(|word| word << n);
        let expected = Parts {
            signs: first.signs,
            kinds: [first.kinds, second.kinds].concat(),
            thresholds: [first.thresholds, second.thresholds].concat(),
            words: first.words.into_iter().chain(shifted).collect(),
        };
        assert_eq!(models[0].joined(&models[1]).parts(), expected, "{models:?}");
    }
}

#[test]
fn gaps_and_nodes_say_the_same_tree() {
    let mut random = Random::new(104);
    for _ in 0..300 {
        let h = random.between(0, 8);
        let gaps = random::tree(&mut random, h, 60);
        let tree = Tree::from_gaps(h, &gaps).unwrap();
        assert_eq!(tree.gaps(), gaps);
        assert_eq!(tree.height(), h);
        assert_eq!(tree.leaf_count(), gaps.len() as u64 + 1);
    }
    // Three leaves, height 2: the first two meet at the root, the last two below it.
    let leaf = || Tree { children: vec![] };
    let one = Tree { children: vec![leaf()] };
    let two = Tree { children: vec![leaf(), leaf()] };
    assert_eq!(Tree::from_gaps(2, &[2, 1]), Some(Tree { children: vec![one, two] }));
    for (h, gaps) in [(0, &[1][..]), (2, &[0]), (2, &[1, 3])] {
        assert_eq!(Tree::from_gaps(h, gaps), None);
    }
}

#[test]
fn there_are_as_many_trees_as_gap_lists() {
    for h in 0..=4_usize {
        for leaves in 1..=5 {
            let trees = Tree::all(h, leaves);
            assert_eq!(trees.len(), h.pow(leaves as u32 - 1), "height {h}, {leaves} leaves");
            assert!(trees.iter().all(|tree| tree.leaf_count() == leaves as u64));
            assert!((0..trees.len()).all(|i| !trees[..i].contains(&trees[i])));
        }
    }
}

#[test]
fn built_in_trees_are_universal() {
    for (h, most) in [(0, 8), (1, 8), (2, 7), (3, 6), (4, 5)] {
        for n in 1..=most {
            let tree = Tree::built_in(n, h);
            assert!(tree.is_universal_for(n, h), "S({n}, {h})");
            // Its root has n children, so that a root with n + 1 does not fit.
            assert!(h == 0 || !tree.is_universal_for(n + 1, h), "S({n}, {h})");
        }
    }
    // S(2, 1) without a leaf, as both halves rounded alike would make it.
    assert!(!Tree::path(1).is_universal_for(2, 1));
}

#[test]
fn built_in_trees_are_document_01s() {
    assert_eq!(Tree::built_in(2, 2).gaps(), [2, 1]);
    assert_eq!(Tree::built_in(3, 2).gaps(), [2, 1, 1, 2]);
    for (n, h, leaves) in [(4, 2, 8), (8, 2, 21), (4, 3, 13), (64, 1, 64), (64, 0, 1)] {
        assert_eq!(Tree::built_in(n, h).leaf_count(), leaves, "L({n}, {h})");
    }
}

#[test]
fn shares_are_rounded_as_floating_point_rounds_to_even() {
    // A share at a half is exact in floating point, and every other one is 1/128 or more from a half.
    for n in 1..=64 {
        for good in 0..=n {
            let exact = 1000.0 * good as f64 / n as f64;
            assert_eq!(reference::share(good, n), exact.round_ties_even() as u64, "{good} of {n}");
        }
    }
}

#[test]
fn met_lines_by_hand() {
    // Lines 0, 2, 3 and 5 are met. Line 1 reads line 0 and is read by none; lines 4 and 6 read each other.
    for kind in [Kind::Any, Kind::All, Kind::AtLeast(1)] {
        let lines = [
            (kind, &[(1, 2), (3, 5)][..]),
            (kind, &[(2, 0)]),
            (kind, &[(1, 2), (2, 3)]),
            (kind, &[(3, 0)]),
            (kind, &[(1, 6)]),
            (Kind::All, &[]),
            (kind, &[(3, 4)]),
        ];
        let model = Model::of(&[false, true, false], &lines);
        assert_eq!(word_of(&met_lines(&model)), 0b10_1101);
        let ends: Vec<u64> = ends_of_paths(&model).take(5).map(|ends| word_of(&ends)).collect();
        assert_eq!(ends, [0b1, 0b10_0100, 0b1100, 0b1101, 0b10_1101]);
    }
}

#[test]
fn the_met_lines_are_the_least_set_with_line_0_that_no_operand_leaves() {
    let mut random = Random::new(114);
    let (mut all, mut spare) = (0, 0);
    for _ in 0..2000 {
        let (n, d) = (random.between(1, 8), random.between(1, 8));
        let model = random::sparse_model(&mut random, n, d);
        let stays = |set: &Set| {
            (0..n).filter(|&i| set[i]).all(|i| model.operands[i].iter().all(|operand| set[operand.line]))
        };
        let closed = (0..1 << n).filter(|word| word & 1 == 1).filter(|&word| stays(&set_of(word, n)));
        let least = closed.fold(full(n), |least, word| least & word);
        assert_eq!(word_of(&met_lines(&model)), least, "{model:?}");
        *(if least == full(n) { &mut all } else { &mut spare }) += 1;
    }
    assert!(all > 500 && spare > 500, "{all} models with all lines met, {spare} others");
}

/// For each two lines, whether the second can be met from the first by one operand or more: Warshall's closure.
fn closure(model: &Model) -> Vec<Set> {
    let n = model.lines();
    let mut leads = vec![vec![false; n]; n];
    for (i, operands) in model.operands.iter().enumerate() {
        for operand in operands {
            leads[i][operand.line] = true;
        }
    }
    for by in 0..n {
        for i in 0..n {
            for j in 0..n {
                leads[i][j] |= leads[i][by] && leads[by][j];
            }
        }
    }
    leads
}

#[test]
fn the_met_lines_are_those_of_warshalls_closure() {
    let mut random = Random::new(115);
    let (mut all, mut spare) = (0, 0);
    for n in 1..=64 {
        for d in 1..=8 {
            for _ in 0..3 {
                let model = random::sparse_model(&mut random, n, d);
                let mut expected = closure(&model).swap_remove(0);
                expected[0] = true;
                assert_eq!(met_lines(&model), expected, "{model:?}");
                *(if expected.iter().all(|&met| met) { &mut all } else { &mut spare }) += 1;
            }
        }
    }
    assert!(all > 100 && spare > 100, "{all} models with all lines met, {spare} others");
}

#[test]
fn a_chain_is_met_link_by_link() {
    let mut random = Random::new(116);
    for n in 1..=64 {
        let order = random::order_from_0(&mut random, n);
        let d = random.between(1, 8);
        let signs = random::signs(&mut random, d);
        let mut model = chain(&order, &signs);
        assert_eq!(met_lines(&model), vec![true; n], "{order:?}");
        for (ends, &line) in ends_of_paths(&model).zip(&order) {
            assert_eq!(word_of(&ends), 1 << line, "{order:?}");
        }
        // Cut behind a line, it is met up to there.
        let last = random.between(0, n - 1);
        model.operands[order[last]].clear();
        let before: u64 = order[..=last].iter().map(|line| 1 << line).sum();
        assert_eq!(word_of(&met_lines(&model)), before, "{order:?} cut behind line {}", order[last]);
    }
}

#[test]
fn one_line_alone_is_good_and_the_same_lines_are_met() {
    let mut random = Random::new(117);
    for _ in 0..1000 {
        let (n, d) = (random.between(1, 64), random.between(2, 8));
        let signs = random::alternating(d, random.chance(50));
        let model = random::model(&mut random, n, &signs, Density::Few);
        let line = random.between(0, n - 1);
        for votes in [false, true] {
            let decided = with_one_good_line(&model, line, votes);
            assert_eq!(word_of(&good_lines(&decided)), 1 << line, "{line} {model:?}");
            assert_eq!(met_lines(&decided), met_lines(&model), "{line} {model:?}");
            assert!((0..n).all(|i| decided.is_vote(i) == votes));
        }
    }
}

#[test]
fn models_with_good_lines_have_so_many_and_spares_leave_their_share() {
    let mut random = Random::new(118);
    let count = |set: &[bool]| set.iter().filter(|&&is_in| is_in).count();
    let (mut voted, mut good_spares, mut other_spares, mut other_shares) = (0, 0, 0, 0);
    for n in 1..=64 {
        for good in 0..=n {
            let model = random::model_with_good_lines(&mut random, n, good);
            let set = good_lines(&model);
            assert_eq!((count(&set), met_lines(&model)), (good, vec![true; n]), "{model:?}");
            assert_eq!(share_of(&model, &set), reference::share(good, n));
            voted += model.has_votes() as usize;
            if n == 64 {
                continue;
            }
            let spares = random.between(1, 64 - n);
            let longer = random::with_spares(&mut random, &model, spares);
            let (set, met) = (good_lines(&longer), met_lines(&longer));
            let both: Vec<bool> = (0..n + spares).map(|i| set[i] && met[i]).collect();
            assert_eq!((longer.lines(), count(&met), count(&both)), (n + spares, n, good), "{longer:?}");
            assert_eq!(share_of(&longer, &set), reference::share(good, n));
            assert_eq!(longer.has_votes(), model.has_votes());
            good_spares += count(&set) - good;
            other_spares += spares - (count(&set) - good);
            // With the spares counted, the share would be another one.
            other_shares += (reference::share(count(&set), n + spares) != reference::share(good, n)) as usize;
        }
    }
    assert!(good_spares > 5000 && other_spares > 5000, "{good_spares} good spares, {other_spares} others");
    assert!((500..1700).contains(&voted), "{voted} models with votes");
    assert!(other_shares > 1500, "only {other_shares} other shares with the spares counted");
}

#[test]
fn lines_that_are_not_met_can_be_left_out() {
    let mut random = Random::new(119);
    let mut shorter = 0;
    for _ in 0..1000 {
        let (n, d) = (random.between(1, 64), random.between(1, 4));
        let model = random::sparse_model(&mut random, n, d);
        let without = without_spares(&model);
        let shares = [&model, &without].map(|model| share_of(model, &good_lines(model)));
        assert_eq!(shares[0], shares[1], "{model:?}");
        assert_eq!(met_lines(&without), vec![true; without.lines()], "{model:?}");
        shorter += (without.lines() < n) as usize;
    }
    assert!(shorter > 500, "only {shorter} models had spare lines");
}

#[test]
fn no_line_of_the_second_of_two_joined_models_is_met() {
    let mut random = Random::new(120);
    for _ in 0..500 {
        let (n, d) = (random.between(1, 63), random.between(1, 8));
        let m = random.between(1, 64 - n);
        let models = random::models_alike(&mut random, [n, m], d);
        let expected = [met_lines(&models[0]), vec![false; m]].concat();
        assert_eq!(met_lines(&models[0].joined(&models[1])), expected, "{models:?}");
    }
}

#[test]
fn met_lines_and_shares_of_the_sample_models() {
    for (name, met, share) in [
        ("p", 0x3, 1000),
        ("q", 0x3, 0),
        ("one-line", 0x1, 0),
        ("incident", 0x1, 0),
        ("tripped", 0xf, 750),
        ("interlocks", 0xffff, 62),
        ("pyrometers", 0xf, 750),
        ("pyrometers-old", 0x7f, 571),
        ("p-and-pyrometers", 0x3, 1000),
        ("spares", 0xf, 250),
    ] {
        let file = std::fs::read(root(&format!("models/{name}.model"))).expect("it is there");
        let model = Model::from_file(&file).expect("it is a model");
        assert_eq!(word_of(&met_lines(&model)), met, "{name}");
        assert_eq!(share_of(&model, &good_lines(&model)), share, "{name}");
    }
}

#[test]
fn the_restricted_sets_count_is_the_product_of_the_leaves() {
    let mut random = Random::new(105);
    for _ in 0..200 {
        let (n, d) = (random.between(1, 8), random.between(1, 8));
        let case = random::case(&mut random, n, d);
        let u = random::tree(&mut random, case.model.least_levels(), 30);
        let v = random::tree(&mut random, case.model.greatest_levels(), 30);
        let (a, b) = case.bounds();
        let tree_u = Tree::from_gaps(case.model.least_levels(), &u).unwrap();
        let tree_v = Tree::from_gaps(case.model.greatest_levels(), &v).unwrap();
        let (_, count) = restricted(&case.model, &a, &b, &tree_u, &tree_v);
        assert_eq!(count, tree_u.leaf_count() * tree_v.leaf_count(), "{case:?}");
    }
}

#[test]
fn the_forecast_is_the_count_of_the_restricted_set_over_built_in_trees() {
    let mut random = Random::new(121);
    let mut counted = 0;
    for (size, product) in forecasts() {
        let case = random::case_of_size(&mut random, size);
        let model = &case.model;
        let sizes = [model.lines(), model.least_levels(), model.greatest_levels()];
        assert_eq!(sizes, [size.lines, size.least, size.greatest]);
        assert_eq!(forecast(model), product, "{size:?}");
        if product <= 300 {
            let (a, b) = case.bounds();
            assert_eq!(over_built_in_trees(model, &a, &b).1, product, "{case:?}");
            counted += 1;
        }
    }
    assert!(counted > 400, "only {counted} sizes were counted");
}

#[test]
fn every_size_has_one_forecast() {
    let all = forecasts();
    // Levels of each sign, from one to eight together: 44 pairs for each number of lines.
    assert_eq!(all.len(), 64 * 44);
    assert!((0..all.len()).all(|i| all[..i].iter().all(|(size, _)| *size != all[i].0)));
    // One line has one leaf at every height, and the next smallest forecast is that of two lines and one level.
    let [(within, small), (over, next)] = forecasts_around(1);
    assert_eq!((within, small.len(), over), (1, 44, 2));
    assert!(small.iter().all(|size| size.lines == 1));
    let of_two_lines = |least, greatest| Size { lines: 2, least, greatest };
    assert_eq!(next, [of_two_lines(0, 1), of_two_lines(1, 0)]);
}

#[test]
fn lower_bound_models_need_a_tree_in_which_theirs_fits() {
    let mut fitting = 0;
    let mut others = 0;
    for (h, n, most) in [(1, 4, 6), (2, 1, 3), (2, 2, 4), (2, 3, 5), (2, 4, 5), (3, 3, 4)] {
        let v = Tree::built_in(n, h);
        let (empty, all) = (vec![false; n], vec![true; n]);
        for t in Tree::all(h, n) {
            let model = lower_bound_model(&t);
            assert_eq!(winning_lines(&model, &empty, &all), all);
            for u in (1..=most).flat_map(|leaves| Tree::all(h, leaves)) {
                let (set, _) = restricted(&model, &empty, &all, &u, &v);
                assert_eq!(set == all, t.fits_in(&u), "T {t:?}, U {u:?}");
                *(if set == all { &mut fitting } else { &mut others }) += 1;
            }
        }
    }
    assert!(fitting > 100 && others > 100);
}

#[test]
fn files_of_models_are_read_back() {
    let mut random = Random::new(106);
    for n in 1..=64 {
        for d in 1..=8 {
            let model = random::any_model(&mut random, n, d);
            let file = model.file();
            assert_eq!(file.len(), 16 + d + 2 * n + 8 * n * d);
            if !model.has_votes() {
                let old = model.old_file();
                assert_eq!(old.len(), 16 + d + n + 8 * n * d);
                assert_eq!(Model::from_file(&old).as_ref(), Ok(&model));
            }
            assert_eq!(Model::from_file(&file), Ok(model));
        }
    }
}

#[test]
fn each_damage_of_a_file_has_its_number() {
    let mut random = Random::new(109);
    for _ in 0..2000 {
        for number in FILE_DAMAGES {
            let file = random::some_damaged_file(&mut random, number);
            assert_eq!(Model::from_file(&file), Err(number), "{file:?}");
        }
    }
}

#[test]
fn each_damage_has_its_number_when_writing() {
    let mut random = Random::new(110);
    for _ in 0..2000 {
        for number in WRITTEN_DAMAGES {
            let (n, d) = (random.between(1, 63), random.between(1, 8));
            let mut written = Written { n, d, parts: random::any_model(&mut random, n, d).parts() };
            random::damage_written(&mut random, &mut written, number);
            let Written { n, d, parts: Parts { signs, kinds, thresholds, words } } = &written;
            let answer = reference::write(*n, *d, signs, kinds, thresholds, words, &mut [0; 4248]);
            assert_eq!(answer.number, number, "{written:?}");
        }
    }
}

#[test]
fn thresholds_that_files_may_have() {
    // Three lines at one level; line 2 selects lines 0 and 1, or line 3 too.
    let selecting = |word: u64, kind: u8, t: u8| {
        let mut file = vec![3, 0, 1, 0, 16, 0, 0, 0, 17, 0, 0, 0, 23, 0, 0, 0, 1, 0, 0, 1, 0, kind, t];
        file.extend([0; 16]);
        file.extend(word.to_le_bytes());
        Model::from_file(&file).map(|model| model.kinds[2])
    };
    let file = |kind, t| selecting(3, kind, t);
    for t in 0..=255 {
        let of_both = if t == 0 { Ok(()) } else { Err(14) };
        assert_eq!(file(0, t), of_both.map(|()| Kind::Any));
        assert_eq!(file(1, t), of_both.map(|()| Kind::All));
        assert_eq!(file(2, t), if t == 1 || t == 2 { Ok(Kind::AtLeast(t as usize)) } else { Err(14) });
        assert_eq!(file(3, t), Err(6));
        assert_eq!((selecting(11, 2, t), selecting(11, 3, t)), (Err(7), Err(6)));
    }
}
