//! The judging program and the page program: their texts against the reference's, for the sample models, random files, forecasts around
//! their ceiling, input in pieces and input that is too long. The join program: its files and refusals against the reference's, for random
//! pairs of files, 64 lines and 65, files that are too long, empty or not there. What all three say of an input that cannot be read and of an
//! output that cannot be written.

use harness::lending::Seen;
use harness::random::{self, full, Random};
use harness::reference::forecast::{forecasts_around, over};
use harness::reference::met::{chain, with_one_good_line};
use harness::reference::{self, forecast, good_lines, met_lines, share_of, word_of, Kind};
use harness::scripts::{closed_pipe, full_disk, run_by_shell, Ended};
use harness::words::Where;
use harness::{root, Answer, PROGRAM_CEILING};
use std::io::Write;
use std::process::{Command, Stdio};
use std::time::Duration;

/// The bytes of a file of the repository.
fn bytes_of(path: &str) -> Vec<u8> {
    std::fs::read(root(path)).expect("it is there")
}

/// What a program writes for an input that arrives in these pieces.
fn written(name: &str, pieces: &[&[u8]], pause: Duration) -> String {
    let mut program = Command::new(root(&format!("target/bin/{name}")))
        .stdin(Stdio::piped())
        .stdout(Stdio::piped())
        .spawn()
        .unwrap_or_else(|_| panic!("target/bin/{name} is missing: run `tools/build.py {name}` first"));
    let mut input = program.stdin.take().expect("it is piped");
    for piece in pieces {
        // A program that has read enough may have ended.
        let _ = input.write_all(piece).and_then(|()| input.flush());
        std::thread::sleep(pause);
    }
    drop(input);
    let output = program.wait_with_output().expect("it ran");
    assert!(output.status.success());
    String::from_utf8(output.stdout).expect("it writes ASCII")
}

fn judged(file: &[u8]) -> String {
    written("judge", &[file], Duration::ZERO)
}

fn paged(file: &[u8]) -> String {
    written("page", &[file], Duration::ZERO)
}

fn line(word: &str, answer: Answer) -> String {
    match answer.number {
        0 => format!("{word} {:016x} {}\n", answer.set, answer.count),
        _ => format!("{word} {}", refusal(answer)),
    }
}

/// What the programs write of a refusal. Only one with a forecast has a count.
fn refusal(answer: Answer) -> String {
    match (answer.number, answer.count) {
        (number, 0) => refused(number),
        (number, forecast) => format!("refused {number} {forecast}\n"),
    }
}

/// What the programs write of a file that is turned down.
fn refused(number: u64) -> String {
    format!("refused {number}\n")
}

/// The page program's text.
fn expected_page(file: &[u8]) -> String {
    reference::page_of(file).unwrap_or_else(refusal)
}

/// The judging program's text: the sets by the game, the plain count by rounds, the tree count by the leaves of linked nodes.
fn expected_judgement(file: &[u8]) -> String {
    let model = match reference::Model::from_file(file) {
        Ok(model) => model,
        Err(number) => return refused(number),
    };
    let plain = line("plain", reference::plain(file, 0, full(model.lines()), PROGRAM_CEILING));
    if let Some(answer) = over(&model, PROGRAM_CEILING) {
        return plain + &line("tree", answer) + "share none\n";
    }
    let set = good_lines(&model);
    let tree = Answer::judged(word_of(&set), forecast(&model));
    plain + &line("tree", tree) + &format!("share {}\n", share_of(&model, &set))
}

#[test]
fn every_sample_model_is_judged_and_has_its_page() {
    let (mut seen, mut old) = (0, Vec::new());
    for entry in std::fs::read_dir(root("models")).expect("models/ is there") {
        let path = entry.expect("it is read").path();
        if path.extension().is_some_and(|e| e == "model") {
            let file = std::fs::read(&path).expect("it is read");
            assert_eq!(judged(&file), expected_judgement(&file), "{}", path.display());
            assert_eq!(paged(&file), expected_page(&file), "{}", path.display());
            seen += 1;
            if random::is_old(&file, file[0] as usize, file[2] as usize) {
                old.push(path.file_stem().expect("it has a name").to_string_lossy().into_owned());
            }
        }
    }
    assert_eq!(seen, 13);
    old.sort();
    assert_eq!(old, ["p", "pyrometers-old"]);
}

#[test]
fn the_sample_models_show_what_their_note_says() {
    let text = |name: &str| judged(&bytes_of(name));
    assert_eq!(text("models/p.model"), "plain 0000000000000003 3\ntree 0000000000000003 4\nshare 1000\n");
    assert_eq!(text("models/q.model"), "plain 0000000000000000 3\ntree 0000000000000000 4\nshare 0\n");
    assert_eq!(text("models/one-line.model"), "plain 0000000000000000 1\ntree 0000000000000000 1\nshare 0\n");
    assert!(text("models/incident.model").contains("tree 0000000000000002 9\nshare 0\n"));
    assert_eq!(text("models/chains.model"), "plain refused 10\ntree 00003fe00ffc01ff 731025\nshare 1000\n");
    assert_eq!(text("models/largest.model"), "plain refused 10\ntree refused 10 6996025\nshare none\n");
    assert_eq!(paged(&bytes_of("models/largest.model")), "refused 10 6996025\n");
    assert_eq!(
        text("models/tripped.model"),
        "plain 0000000000000007 6\ntree 0000000000000007 16\nshare 750\n"
    );
    assert_eq!(
        text("models/interlocks.model"),
        "plain 0000000000008000 2\ntree 0000000000008000 16\nshare 62\n"
    );
    assert!(text("models/pyrometers.model").contains("tree 0000000000000007 16\nshare 750\n"));
    assert!(text("models/pyrometers-old.model").contains("tree 0000000000000017 49\nshare 571\n"));
    assert_eq!(
        text("models/p-and-pyrometers.model"),
        "plain 000000000000001f 6\ntree 000000000000001f 36\nshare 1000\n"
    );
}

#[test]
fn the_pyrometers_vote_as_their_note_says() {
    let read = |name: &str| reference::Model::from_file(&bytes_of(name)).expect("it is a model");
    let (model, old) = (read("models/pyrometers.model"), read("models/pyrometers-old.model"));
    // The file is new, and so is that of every other threshold.
    let of_threshold = |t: u8| {
        let mut file = model.file();
        file[16 + 2 + 1] = t;
        judged(&file)
    };
    assert_eq!(model.file(), bytes_of("models/pyrometers.model"));
    assert_eq!(of_threshold(2), judged(&model.file()));
    assert!(of_threshold(3).contains("tree 0000000000000006 16\n"));
    assert_eq!((of_threshold(0), of_threshold(4)), (refused(14), refused(14)));
    // The old one has the vote written out: the same lines but for line 0, which has the pairs of pyrometers.
    let pairs = [[1, 2], [1, 3], [2, 3]];
    let of = |lines: &[usize]| -> Vec<_> {
        lines.iter().map(|&line| reference::Operand { level: 0, line }).collect()
    };
    assert_eq!((model.kinds[0], &model.operands[0]), (Kind::AtLeast(2), &of(&[1, 2, 3])));
    assert_eq!((old.kinds[0], &old.operands[0]), (Kind::Any, &of(&[4, 5, 6])));
    for (pair, line) in pairs.iter().zip(4..) {
        assert_eq!((old.kinds[line], &old.operands[line]), (Kind::All, &of(pair)));
    }
    assert_eq!(old.greatest, model.greatest);
    for line in 1..4 {
        assert_eq!((old.kinds[line], &old.operands[line]), (model.kinds[line], &model.operands[line]));
    }
    assert_eq!(old.old_file(), bytes_of("models/pyrometers-old.model"));
}

#[test]
fn the_spare_lines_count_for_nothing_as_their_note_says() {
    let lines = [
        (Kind::All, &[(2, 0), (2, 1), (2, 2)][..]),
        (Kind::Any, &[(1, 1), (1, 3)]),
        (Kind::All, &[]),
        (Kind::Any, &[]),
        (Kind::All, &[]),
        (Kind::All, &[]),
        (Kind::All, &[]),
        (Kind::All, &[]),
    ];
    let of_lines = |lines| reference::Model::of(&[false, true], lines).file();
    let file = bytes_of("models/spares.model");
    assert_eq!(file, of_lines(&lines));
    assert_eq!(judged(&file), "plain 00000000000000f4 6\ntree 00000000000000f4 64\nshare 250\n");
    assert!(paged(&file).starts_with("lines  8 levels 2 share  250 "));
    // Of all eight lines five are good, which would have been 625.
    assert_eq!(reference::share(0xf4_u32.count_ones() as usize, 8), 625);
    // Without the spare lines.
    let without = of_lines(&lines[..4]);
    assert_eq!(judged(&without), "plain 0000000000000004 6\ntree 0000000000000004 16\nshare 250\n");
    assert!(paged(&without).starts_with("lines  4 levels 2 share  250 "));
}

#[test]
fn two_more_closed_interlocks_have_the_share_that_the_note_says() {
    let file = bytes_of("models/interlocks.model");
    let mut model = reference::Model::from_file(&file).expect("it is a model");
    assert!(model.kinds[15] == Kind::All && model.is_idle(15));
    for line in [13, 14] {
        model.kinds[line] = Kind::All;
        model.operands[line].clear();
    }
    assert!(judged(&model.file()).ends_with("tree 000000000000e000 16\nshare 188\n"));
}

#[test]
fn loops_in_place_of_missing_successors_are_judged_as_the_note_says() {
    let file = bytes_of("models/tripped.model");
    let looped = |line: usize, level: usize| {
        let mut model = reference::Model::from_file(&file).expect("it is a model");
        assert!(model.is_idle(line));
        model.operands[line].push(reference::Operand { level: level - 1, line });
        judged(&model.file())
    };
    assert!(looped(2, 1).contains("tree 0000000000000000 16\n"));
    assert!(looped(3, 2).contains("tree 000000000000000f 16\n"));
}

/// The programs must write the reference's texts of this file. The judging program's is returned.
fn both_programs(file: &[u8]) -> String {
    let text = judged(file);
    assert_eq!(text, expected_judgement(file), "{file:?}");
    assert_eq!(paged(file), expected_page(file), "{file:?}");
    text
}

#[test]
fn shares_of_sixteenths_are_printed() {
    let mut random = Random::new(802);
    for n in [16, 32, 48, 64] {
        for good in (0..=n).step_by(n / 16) {
            // All n lines are met; then with spare lines.
            let model = random::model_with_good_lines(&mut random, n, good);
            for spares in [0, random.between(0, 64 - n), 64 - n] {
                let text = both_programs(&random::with_spares(&mut random, &model, spares).file());
                // 62.5, 125, 187.5 and so on, a half to the even number.
                let shares =
                    [0, 62, 125, 188, 250, 312, 375, 438, 500, 562, 625, 688, 750, 812, 875, 938, 1000];
                let last = format!("\nshare {}\n", shares[16 * good / n]);
                assert!(text.ends_with(&last), "{good} of {n}, {spares} spares: {text}");
            }
        }
    }
}

#[test]
fn only_the_lines_that_are_met_count_in_what_is_printed() {
    let mut random = Random::new(807);
    let (mut all, mut spare, mut other_shares) = (0, 0, 0);
    for n in 1..=64 {
        for d in 1..=3 {
            let model = random::sparse_model(&mut random, n, d);
            let text = both_programs(&random::file(&mut random, &model));
            let met = word_of(&met_lines(&model));
            *(if met == full(n) { &mut all } else { &mut spare }) += 1;
            let good = good_lines(&model).iter().filter(|&&is_good| is_good).count();
            other_shares += !text.ends_with(&format!("\nshare {}\n", reference::share(good, n))) as usize;
        }
    }
    assert!(all > 15 && spare > 100, "{all} models with all lines met, {spare} others");
    assert!(other_shares > 50, "only {other_shares} shares would be others if all lines counted");
    // A chain of 64 lines: of those that are met, one is good, or none where that one stands behind a cut.
    for (at, cut, share) in [(63, 63, 16), (40, 63, 16), (40, 40, 24), (40, 39, 0), (0, 0, 1000), (63, 0, 0)]
    {
        let order = random::order_from_0(&mut random, 64);
        let mut model = chain(&order, &[false, true]);
        model.operands[order[cut]].clear();
        let votes = random.chance(50);
        let decided = with_one_good_line(&model, order[at], votes);
        let text = both_programs(&random::file(&mut random, &decided));
        assert!(text.ends_with(&format!("\nshare {share}\n")), "{at} {cut} {order:?}: {text}");
    }
}

#[test]
fn random_files_are_judged_or_refused() {
    let mut random = Random::new(801);
    let (mut accepted, mut refused) = (0, 0);
    for _ in 0..600 {
        let (n, d) = (random.between(1, 64), random.between(1, 4));
        let file = random::troubled_case(&mut random, n, d).file;
        let text = both_programs(&file);
        *(if text.starts_with("refused") { &mut refused } else { &mut accepted }) += 1;
    }
    assert!(accepted > 50 && refused > 50, "{accepted} accepted, {refused} refused");
}

#[test]
fn random_files_are_judged_up_to_the_ceiling() {
    let mut random = Random::new(808);
    let (mut judged, mut over, mut plainly_alone, mut damaged) = (0, 0, 0, 0);
    for _ in 0..150 {
        let (n, d) = (random.between(50, 64), random.between(5, 8));
        let model = random::sparse_model(&mut random, n, d);
        let mut file = random::file(&mut random, &model);
        if random.chance(15) {
            random::damage_file_often(&mut random, &mut file, n, d);
        }
        let text = both_programs(&file);
        if text.starts_with("refused") {
            damaged += 1;
        } else if text.ends_with("\nshare none\n") {
            over += 1;
            plainly_alone += !text.starts_with("plain refused") as usize;
        } else {
            judged += 1;
        }
    }
    assert!(
        judged > 30 && over > 30 && plainly_alone > 30 && damaged > 10,
        "{judged} judged, {over} over the ceiling and {plainly_alone} of these judged plainly, {damaged} damaged"
    );
}

/// A model of levels whose signs alternate, each with a chain of so many lines that read one another at that level alone: they get to be
/// what they are one by one, in a round each, and a last round shows the same.
fn slow_model(chains: &[usize]) -> reference::Model {
    let greatest = random::alternating(chains.len(), false);
    let mut lines = Vec::new();
    for (level, &length) in chains.iter().enumerate() {
        let first = lines.len();
        lines.push((if greatest[level] { Kind::Any } else { Kind::All }, Vec::new()));
        lines.extend((1..length).map(|at| (Kind::Any, vec![(level + 1, first + at - 1)])));
    }
    let lines: Vec<_> = lines.iter().map(|(kind, operands)| (*kind, &operands[..])).collect();
    reference::Model::of(&greatest, &lines)
}

#[test]
fn a_plain_run_over_the_ceiling_is_cut_off_and_the_trees_judge_all_the_same() {
    // Ten rounds at each of six levels are a million queries, and eleven at one of them are 100,000 more.
    for (longest, plainly) in [(9, true), (10, false)] {
        let model = slow_model(&[9, 9, longest, 9, 9, 9]);
        let text = both_programs(&random::file(&mut Random::new(810), &model));
        let (set, forecast) = (word_of(&good_lines(&model)), forecast(&model));
        let plain = if plainly { format!("{set:016x} 1000000") } else { "refused 10".to_string() };
        assert_eq!(text, format!("plain {plain}\ntree {set:016x} {forecast}\nshare 1000\n"));
        assert_eq!(model.file() == bytes_of("models/chains.model"), !plainly);
    }
}

#[test]
fn the_forecasts_nearest_to_the_ceiling_are_judged_and_refused() {
    let mut random = Random::new(809);
    let [(within, judged), (over, refused)] = forecasts_around(PROGRAM_CEILING);
    for size in judged {
        let model = random::model_of_size(&mut random, size);
        let file = random::file(&mut random, &model);
        let text = both_programs(&file);
        let tree = text.lines().nth(1).expect("it has three lines");
        assert!(tree.starts_with("tree ") && tree.ends_with(&format!(" {within}")), "{size:?}: {text}");
        assert!(!tree.contains("refused") && !text.ends_with("share none\n"), "{size:?}: {text}");
        assert!(paged(&file).starts_with("lines "), "{size:?}");
    }
    for size in refused {
        let model = random::model_of_size(&mut random, size);
        let file = random::file(&mut random, &model);
        let text = both_programs(&file);
        assert!(text.ends_with(&format!("\ntree refused 10 {over}\nshare none\n")), "{size:?}: {text}");
        assert_eq!(paged(&file), format!("refused 10 {over}\n"), "{size:?}");
    }
}

#[test]
fn input_in_pieces_is_one_input() {
    for name in ["models/p.model", "models/incident.model"] {
        let file = bytes_of(name);
        let pieces: Vec<&[u8]> = file.chunks(7).collect();
        let pause = Duration::from_millis(3);
        assert_eq!(written("judge", &pieces, pause), expected_judgement(&file));
        assert_eq!(written("page", &pieces, pause), expected_page(&file));
    }
}

#[test]
fn input_that_is_too_long_is_refused() {
    let model = |name: &str| reference::Model::from_file(&bytes_of(name)).expect("it is a model");
    let (mut largest, small) = (model("models/largest.model"), model("models/p.model"));
    let over = [largest.file(), largest.old_file()];
    // With one sign the forecast is within the ceiling.
    largest.greatest = vec![true; 8];
    let within = [largest.file(), largest.old_file(), small.file(), small.old_file()];
    assert_eq!((largest.file().len(), largest.old_file().len()), (4248, 4184));
    for file in &within {
        let text = judged(file);
        assert!(text.starts_with("plain ") && !text.contains("tree refused"), "{text}");
        assert!(paged(file).starts_with("lines "));
    }
    for file in &over {
        assert!(judged(file).contains("tree refused 10 6996025\n"));
        assert_eq!(paged(file), "refused 10 6996025\n");
    }
    for file in within.iter().chain(&over) {
        // 64 more make the largest old file as long as the largest new one.
        for more in [1, 2, 64, 65, 5_000, 200_000] {
            let long = [&file[..], &vec![0; more]].concat();
            for text in [judged(&long), paged(&long)] {
                assert_eq!(text, "refused 5\n", "{} bytes and {more} more", file.len());
            }
        }
    }
}

#[test]
fn no_input_is_refused() {
    assert_eq!(judged(&[]), "refused 1\n");
    assert_eq!(paged(&[]), "refused 1\n");
}

/// The joined file by the reference, none where it is refused, and what the join program says.
fn expected_join(first: &[u8], second: &[u8]) -> (Answer, Vec<u8>, String) {
    let mut file = vec![0; 4248];
    let answer = reference::join(first, second, &mut file);
    file.truncate(answer.length as usize);
    let said = match answer.number {
        0 => String::new(),
        number => refused(number) + &Where::of(first, second).line(),
    };
    (answer, file, said)
}

/// The path of a file of this test, with a space in it.
fn path_of(test: &str, name: &str) -> String {
    format!("{}/{test} {name}.model", env!("CARGO_TARGET_TMPDIR"))
}

/// The paths of two files of these bytes, which it writes.
fn saved(test: &str, first: &[u8], second: &[u8]) -> [String; 2] {
    [("first", first), ("second", second)].map(|(name, bytes)| {
        let path = path_of(test, name);
        std::fs::write(&path, bytes).expect("it is written");
        path
    })
}

/// Runs the join program, which must end well with this file, or none, and these words.
fn assert_joins(paths: &[String; 2], file: &[u8], says: &str) {
    let output = Command::new(root("target/bin/join"))
        .args(paths)
        .output()
        .expect("target/bin/join is missing: run `tools/build.py join` first");
    assert!(output.status.success());
    assert_eq!(String::from_utf8_lossy(&output.stderr), says);
    assert_eq!(output.stdout, file);
}

/// Joins two files by the program and by the reference, and compares the file and the refusal.
fn join_both(test: &str, first: &[u8], second: &[u8]) -> Answer {
    let (answer, file, said) = expected_join(first, second);
    assert_joins(&saved(test, first, second), &file, &said);
    answer
}

#[test]
fn random_pairs_are_joined_or_refused() {
    let mut random = Random::new(803);
    let mut seen = Seen::default();
    // How often each file of a joined pair was a new one or an old one.
    let mut mixed = [[0; 2]; 2];
    for _ in 0..250 {
        let (most, d) = (if random.chance(90) { 32 } else { 64 }, random.between(1, 8));
        let [first, second] = random::troubled_pair(&mut random, most, d);
        let answer = join_both("pairs", &first, &second);
        seen.note(answer);
        if answer.number == 0 {
            let [i, j] = [&first, &second]
                .map(|file| random::is_old(file, file[0] as usize, file[2] as usize) as usize);
            mixed[i][j] += 1;
        }
    }
    seen.assert_each(&[0, 1, 2, 3, 4, 5, 6, 7, 14, 15], 3);
    assert!(mixed.concat().iter().all(|&times| times >= 5), "{mixed:?}");
}

#[test]
fn sixty_four_lines_together_are_joined_and_sixty_five_refused() {
    let mut random = Random::new(804);
    for d in [1, 8] {
        for (n, m) in [(1, 63), (32, 32), (63, 1), (1, 64), (32, 33), (64, 1)] {
            let models = random::models_alike(&mut random, [n, m], d);
            let [first, second] = models.map(|model| random::file(&mut random, &model));
            let answer = join_both("lines", &first, &second);
            assert_eq!(answer.number, if n + m == 64 { 0 } else { 2 });
            assert!(n + m > 64 || d < 8 || answer.length == 4248);
        }
    }
}

#[test]
fn files_that_are_too_long_are_refused() {
    let mut random = Random::new(805);
    let models = random::models_alike(&mut random, [64, 7], 8);
    let [largest, small] = models.map(|model| model.file());
    assert_eq!(largest.len(), 4248);
    // As long as the largest file, one and more above, and far above.
    for length in [4248, 4249, 4250, 8498, 200_000] {
        for file in [&largest, &small] {
            let mut long = file.clone();
            long.resize(length, 0);
            let number = if long == largest { 2 } else { 5 };
            for (first, second) in [(&long, &small), (&small, &long)] {
                assert_eq!(join_both("long", first, second), Answer::refused(number));
            }
        }
        // What is wrong before the length comes first.
        assert_eq!(join_both("long", &vec![0; length], &small), Answer::refused(2));
    }
}

#[test]
fn empty_files_are_refused() {
    let p = bytes_of("models/p.model");
    for (first, second) in [(&[][..], &p[..]), (&p, &[]), (&[], &[])] {
        assert_eq!(join_both("empty", first, second), Answer::refused(1));
    }
}

/// The first file that cannot be opened or read is named with the reason, and nothing is refused.
#[test]
fn files_that_cannot_be_read_are_named() {
    let [p, q] = ["models/p.model", "models/q.model"].map(root);
    let (none, folder) = (path_of("missing", "none"), root("models"));
    let (no_file, is_folder) = ("No such file or directory", "Is a directory");
    for (paths, named, reason) in [
        ([&none, &p], &none, no_file),
        ([&p, &none], &none, no_file),
        ([&none, &folder], &none, no_file),
        ([&folder, &none], &folder, is_folder),
        ([&q, &folder], &folder, is_folder),
    ] {
        assert_joins(&paths.map(String::clone), &[], &format!("{named}: {reason}\n"));
    }
}

/// Runs a program by the shell, with these words behind it: it must write nothing and say this. A closed pipe is an error of its write, and no signal.
fn assert_says(program: &str, words: &str, output: Stdio, said: &str) {
    let ended = run_by_shell(&format!("trap '' PIPE; target/bin/{program} {words}"), output);
    assert_eq!(ended, Ended::new(0, "", said), "{program} {words}");
}

/// A read that fails is no end of the input, and never `refused 1`.
#[test]
fn input_that_cannot_be_read_is_said() {
    for program in ["judge", "page"] {
        for (words, reason) in [("<models", "Is a directory"), ("<&-", "Bad file descriptor")] {
            assert_says(program, words, Stdio::piped(), &format!("standard input: {reason}\n"));
        }
    }
}

#[test]
fn output_that_cannot_be_written_is_said() {
    let p = "models/p.model";
    for (program, words) in
        [("judge", format!("<{p}")), ("page", format!("<{p}")), ("join", format!("{p} {p}"))]
    {
        for (output, closing, reason) in [
            (full_disk(), "", "No space left on device"),
            (closed_pipe(), "", "Broken pipe"),
            (Stdio::null(), " >&-", "Bad file descriptor"),
        ] {
            let said = format!("standard output: {reason}\n");
            assert_says(program, &format!("{words}{closing}"), output, &said);
        }
    }
}

#[test]
fn the_join_program_says_its_usage() {
    for words in ["", "models/p.model", "models/p.model models/p.model models/p.model"] {
        assert_says("join", words, Stdio::piped(), "usage: join FIRST SECOND >OUT\n");
    }
}

#[test]
fn the_joined_sample_model_is_that_of_the_other_two() {
    let (p, pyrometers) = (bytes_of("models/p.model"), bytes_of("models/pyrometers.model"));
    let (_, joined, _) = expected_join(&p, &pyrometers);
    assert_eq!(bytes_of("models/p-and-pyrometers.model"), joined);
    assert_eq!(bytes_of("crates/join/stdout"), joined);
    assert_eq!(bytes_of("crates/join/data/p.model"), p);
    assert_eq!(bytes_of("crates/join/data/pyrometers.model"), pyrometers);
}
