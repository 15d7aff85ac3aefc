//! Lines without operands (request W2), here called idle, in every operation: an "any" of none never holds, an "all" of none always does.

use harness::lending::{file_length, page_length};
use harness::random::{self, full, Case, Random};
use harness::reference::{forecast, Kind, Model, Operand};
use harness::{ffi, Answer, PROGRAM_CEILING};

/// The lines of kind all, as a word.
fn all_lines(model: &Model) -> u64 {
    (0..model.lines()).filter(|&i| model.kinds[i] == Kind::All).map(|i| 1 << i).sum()
}

/// The idle lines, as a word.
fn idle_lines(model: &Model) -> u64 {
    (0..model.lines()).filter(|&i| model.is_idle(i)).map(|i| 1 << i).sum()
}

/// Lent trees of any size for a model.
fn trees(random: &mut Random, model: &Model) -> (Vec<u8>, Vec<u8>) {
    (random::tree(random, model.least_levels(), 12), random::tree(random, model.greatest_levels(), 12))
}

#[test]
fn random_models_have_idle_lines_of_both_kinds() {
    let mut random = Random::new(1101);
    let kinds = |models: Vec<Model>| {
        let of_kind = |kind: Kind| {
            let lines = |model: &Model| {
                (0..model.lines()).filter(|&i| model.is_idle(i) && model.kinds[i] == kind).count()
            };
            models.iter().map(lines).sum::<usize>()
        };
        (of_kind(Kind::Any), of_kind(Kind::All))
    };
    let small = kinds((0..1000).map(|_| random::small_case(&mut random).model).collect());
    let sizes = (0..1000).map(|_| (random.between(1, 64), random.between(1, 8))).collect::<Vec<_>>();
    let any = kinds(sizes.iter().map(|&(n, d)| random::any_model(&mut random, n, d)).collect());
    let hard = kinds((0..100).map(|_| random::hard_model(&mut random, 64, 4, 20, 30)).collect());
    for (idle_any, idle_all) in [small, any, hard] {
        assert!(idle_any > 100 && idle_all > 100, "{idle_any} of kind any, {idle_all} of kind all");
    }
}

#[test]
fn models_of_idle_lines_alone_in_every_operation() {
    let mut random = Random::new(1102);
    let mut refused_pages = 0;
    for n in 1..=64 {
        for d in 1..=8 {
            let kinds = (0..n).map(|_| [Kind::Any, Kind::All][random.between(0, 1)]).collect();
            let greatest = random::signs(&mut random, d);
            let bounds = random::bounds(&mut random, n);
            let model = Model { greatest, kinds, operands: vec![Vec::new(); n] };
            let Case { model, file, a, b } = Case::new(&mut random, model, bounds);
            let good = all_lines(&model);

            let (mut signs, mut kinds, mut words) = (vec![9; d], vec![9; n], vec![9; n * d]);
            let mut thresholds = vec![9; n];
            let read = ffi::read(&file, &mut signs, &mut kinds, &mut thresholds, &mut words);
            assert_eq!(read, Answer { lines: n as u64, levels: d as u64, ..Answer::default() });
            assert_eq!((&thresholds, &words), (&vec![0; n], &vec![0; n * d]));
            let mut written = vec![9; model.file().len()];
            let length = ffi::write(n, d, &signs, &kinds, &thresholds, &words, &mut written);
            assert_eq!(length, Answer { length: written.len() as u64, ..Answer::default() });
            assert_eq!(written, model.file());

            let xs: Vec<u64> = random.words(d).iter().map(|word| word & full(n)).collect();
            assert_eq!(ffi::query(&file, &xs), Answer { set: good, ..Answer::default() }, "{model:?}");

            // Every level has this set after one round, and a second round shows it where the first began with another.
            let set = a | (b & good);
            let rounds = |&greatest: &bool| if set == (if greatest { b } else { a }) { 1 } else { 2 };
            let queries = model.greatest.iter().map(rounds).product();
            assert_eq!(ffi::plain(&file, a, b, queries), Answer::judged(set, queries), "{a} {b} {model:?}");
            assert_eq!(ffi::plain(&file, a, b, queries - 1), Answer::refused(10), "{a} {b} {model:?}");
            let (u, v) = trees(&mut random, &model);
            let leaves = (u.len() as u64 + 1) * (v.len() as u64 + 1);
            assert_eq!(ffi::lent(&file, a, b, &u, &v), Answer::judged(set, leaves), "{u:?} {v:?} {model:?}");
            let one_sided = ffi::one_sided(&file, &v, &mut vec![9; v.len() + 2]);
            assert_eq!((one_sided.number, one_sided.set), (0, good), "{v:?} {model:?}");
            let forecast = forecast(&model);
            assert_eq!(ffi::built(&file, a, b, forecast), Answer::judged(set, forecast), "{a} {b} {model:?}");
            assert_eq!(ffi::built(&file, a, b, forecast - 1), Answer::over(forecast), "{a} {b} {model:?}");

            if 2 * n <= 64 {
                let mut joined = vec![9; file_length(2 * n, d)];
                assert_eq!(ffi::join(&file, &file, &mut joined).length, joined.len() as u64);
                assert_eq!(joined, model.joined(&model).file());
            }

            let mut page = vec![0; page_length(n)];
            let answer = ffi::page(&file, &mut page);
            if forecast > PROGRAM_CEILING {
                assert_eq!(answer, Answer::over(forecast), "{model:?}");
                refused_pages += 1;
                continue;
            }
            assert_eq!(answer.number, 0);
            let page = String::from_utf8(page).expect("it is ASCII");
            for (i, row) in page.lines().skip(1).enumerate() {
                let shown = if model.kinds[i] == Kind::All { "all +" } else { "any -" };
                assert_eq!(row.trim_end(), format!("{i:2} {shown}"));
            }
        }
    }
    assert!((20..100).contains(&refused_pages), "{refused_pages} of 512 pages are refused");
}

#[test]
fn an_idle_line_is_its_kind_in_a_query() {
    let mut random = Random::new(1103);
    for _ in 0..2000 {
        let (n, d) = (random.between(1, 64), random.between(1, 8));
        let model = random::any_model(&mut random, n, d);
        let xs: Vec<u64> = random.words(d).iter().map(|word| word & full(n)).collect();
        let idle = idle_lines(&model);
        let file = random::file(&mut random, &model);
        assert_eq!(ffi::query(&file, &xs).set & idle, all_lines(&model) & idle, "{xs:?} {model:?}");
    }
}

#[test]
fn an_idle_line_is_judged_by_its_kind_and_the_bounds_alone() {
    let mut random = Random::new(1104);
    let mut judged_plainly = 0;
    for _ in 0..3000 {
        let (n, d) = (random.between(1, 64), random.between(1, 4));
        let Case { model, file, a, b } = random::case(&mut random, n, d);
        let idle = idle_lines(&model);
        let expected = (a | (b & all_lines(&model))) & idle;
        let (u, v) = trees(&mut random, &model);
        assert_eq!(ffi::built(&file, a, b, u64::MAX).set & idle, expected, "{a} {b} {model:?}");
        assert_eq!(ffi::lent(&file, a, b, &u, &v).set & idle, expected, "{a} {b} {u:?} {v:?} {model:?}");
        let plain = ffi::plain(&file, a, b, 10_000);
        if plain.number == 0 {
            assert_eq!(plain.set & idle, expected, "{a} {b} {model:?}");
            judged_plainly += (idle != 0) as usize;
        }
    }
    assert!(judged_plainly > 1000, "only {judged_plainly} models with idle lines were judged plainly");
}

/// The model with each idle line looped to itself at a level: of the least sign for kind any and the greatest for kind
/// all, or the other way round. Both signs are there.
fn looped(model: &Model, right: bool) -> Model {
    let mut looped = model.clone();
    for i in (0..model.lines()).filter(|&i| model.is_idle(i)) {
        let all = model.kinds[i] == Kind::All;
        let level = model.greatest.iter().position(|&greatest| (greatest == all) == right);
        looped.operands[i].push(Operand { level: level.expect("both signs are there"), line: i });
    }
    looped
}

#[test]
fn an_idle_line_is_a_loop_at_a_level_of_the_right_sign_and_not_of_the_wrong_one() {
    let mut random = Random::new(1105);
    let (mut compared, mut misjudged) = (0, 0);
    for _ in 0..2000 {
        let (n, d) = (random.between(1, 64), random.between(2, 4));
        let Case { model, file, a, b } = random::case(&mut random, n, d);
        if idle_lines(&model) == 0 || model.least_levels() == 0 || model.greatest_levels() == 0 {
            continue;
        }
        // The loops leave the forecast as it is.
        let judge = |file: &[u8]| ffi::built(file, a, b, forecast(&model));
        let judged = judge(&file);
        assert_eq!(judged.number, 0);
        assert_eq!(judge(&looped(&model, true).file()), judged, "{a} {b} {model:?}");
        compared += 1;
        misjudged += (judge(&looped(&model, false).file()).set != judged.set) as usize;
    }
    assert!(compared > 500 && misjudged > 200, "{compared} compared, {misjudged} misjudged");
}
