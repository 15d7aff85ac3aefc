//! Models, files, bounds and trees from a seed, valid and not.

use crate::reference::forecast::Size;
use crate::reference::game::winning_lines;
use crate::reference::model::Parts;
use crate::reference::tree::lower_bound_model;
use crate::reference::{set_of, Kind, Model, Operand, Set, Tree};

/// SplitMix64.
pub struct Random {
    state: u64,
}

impl Random {
    pub fn new(seed: u64) -> Random {
        Random { state: seed }
    }

    pub fn word(&mut self) -> u64 {
        self.state = self.state.wrapping_add(0x9e37_79b9_7f4a_7c15);
        let mut z = self.state;
        z = (z ^ (z >> 30)).wrapping_mul(0xbf58_476d_1ce4_e5b9);
        z = (z ^ (z >> 27)).wrapping_mul(0x94d0_49bb_1331_11eb);
        z ^ (z >> 31)
    }

    /// A number from `low` to `high`, both included.
    pub fn between(&mut self, low: usize, high: usize) -> usize {
        low + (self.word() % (high - low + 1) as u64) as usize
    }

    pub fn chance(&mut self, percent: usize) -> bool {
        self.between(1, 100) <= percent
    }

    pub fn bytes(&mut self, count: usize) -> Vec<u8> {
        (0..count).map(|_| self.word() as u8).collect()
    }

    pub fn words(&mut self, count: usize) -> Vec<u64> {
        (0..count).map(|_| self.word()).collect()
    }
}

/// The word with the lines 0 to n - 1.
pub fn full(n: usize) -> u64 {
    (0..n).map(|line| 1 << line).sum()
}

fn shuffle<T>(random: &mut Random, entries: &mut [T]) {
    for i in (1..entries.len()).rev() {
        entries.swap(i, random.between(0, i));
    }
}

/// The lines 0 to n - 1 in any order, line 0 first.
pub fn order_from_0(random: &mut Random, n: usize) -> Vec<usize> {
    let mut order: Vec<usize> = (0..n).collect();
    shuffle(random, &mut order[1..]);
    order
}

// ---- models ----

/// How many operands a line has that is not idle.
#[derive(Clone, Copy, Debug, PartialEq, Eq)]
pub enum Density {
    /// One or two.
    Few,
    /// Two or three.
    Several,
    Three,
    /// Each possible operand with this chance in a hundred, and at least one.
    Share(usize),
}

/// The signs of d levels that alternate, level 1 least or greatest.
pub fn alternating(d: usize, first_greatest: bool) -> Vec<bool> {
    (0..d).map(|level| (level % 2 == 0) == first_greatest).collect()
}

/// Signs of d levels: alternating, all equal, or any.
pub fn signs(random: &mut Random, d: usize) -> Vec<bool> {
    let first = random.chance(50);
    match random.between(0, 5) {
        0 | 1 => alternating(d, first),
        2 => vec![first; d],
        _ => (0..d).map(|_| random.chance(50)).collect(),
    }
}

/// Signs of so many least and greatest levels, in any order.
pub fn signs_of(random: &mut Random, least: usize, greatest: usize) -> Vec<bool> {
    let mut signs = [vec![false; least], vec![true; greatest]].concat();
    shuffle(random, &mut signs);
    signs
}

/// How many lines of a hundred a model leaves without operands: none in two models of five.
fn idle_share(random: &mut Random) -> usize {
    if random.chance(40) {
        0
    } else {
        random.between(5, 40)
    }
}

/// How many of a hundred lines with operands are votes: none in two models of five, all in one of twenty.
fn vote_share(random: &mut Random) -> usize {
    match random.between(0, 19) {
        0..=7 => 0,
        8 => 100,
        _ => random.between(10, 60),
    }
}

/// What a vote of so many operands needs: often 1, 2 or all of them.
fn threshold(random: &mut Random, operands: usize) -> usize {
    let t = match random.between(0, 9) {
        0 => 1,
        1 | 2 => 2,
        3 => operands,
        _ => random.between(1, operands),
    };
    t.min(operands).min(255)
}

/// Makes a vote of each line that has operands, with a chance of `votes` in a hundred.
fn add_votes(random: &mut Random, kinds: &mut [Kind], operands: &[Vec<Operand>], votes: usize) {
    for (kind, operands) in kinds.iter_mut().zip(operands) {
        // With no votes nothing is drawn here, for the same reason as with no idle lines below.
        if votes > 0 && !operands.is_empty() && random.chance(votes) {
            *kind = Kind::AtLeast(threshold(random, operands.len()));
        }
    }
}

/// Kind all with a chance of `share` in a hundred, else any.
fn any_or_all(random: &mut Random, share: usize) -> Kind {
    if random.chance(share) {
        Kind::All
    } else {
        Kind::Any
    }
}

/// Operands of line i: none with a chance of `idle` in a hundred, else one or more.
fn operands(
    random: &mut Random,
    i: usize,
    n: usize,
    d: usize,
    density: Density,
    idle: usize,
) -> Vec<Operand> {
    let mut operands = Vec::new();
    // With no idle lines nothing is drawn here, so that the benchmark's models stay the same.
    if idle > 0 && random.chance(idle) {
        return operands;
    }
    let wanted = match density {
        Density::Few => random.between(1, 2),
        Density::Several => random.between(2, 3),
        Density::Three => 3,
        Density::Share(percent) => {
            for level in 0..d {
                let chosen = (0..n).filter(|_| random.chance(percent));
                operands.extend(chosen.map(|line| Operand { level, line }));
            }
            1
        }
    };
    // Operands near their line part the lines into groups, which may come to different values.
    let reach = if random.chance(70) { 2 } else { n };
    while operands.len() < wanted.min(n * d) {
        let line = random.between(i.saturating_sub(reach), (i + reach).min(n - 1));
        let operand = Operand { level: random.between(0, d - 1), line };
        if !operands.contains(&operand) {
            operands.push(operand);
        }
    }
    operands.sort();
    operands
}

/// A model of n lines with these signs, some lines idle and some votes.
pub fn model(random: &mut Random, n: usize, greatest: &[bool], density: Density) -> Model {
    // The share of "all" lines among those that are no votes; now and then all are of one kind.
    let share = match random.between(0, 19) {
        0 => 0,
        1 => 100,
        _ => random.between(30, 70),
    };
    let kinds: Vec<Kind> = (0..n).map(|_| any_or_all(random, share)).collect();
    let idle = idle_share(random);
    let mut model = model_of_kinds(random, &kinds, greatest, density, idle);
    let votes = vote_share(random);
    add_votes(random, &mut model.kinds, &model.operands, votes);
    model
}

/// A model with these kinds of its lines and these signs, each line idle with a chance of `idle` in a hundred.
pub fn model_of_kinds(
    random: &mut Random,
    kinds: &[Kind],
    greatest: &[bool],
    density: Density,
    idle: usize,
) -> Model {
    let (n, d) = (kinds.len(), greatest.len());
    let operands = (0..n).map(|i| operands(random, i, n, d, density, idle)).collect();
    Model { greatest: greatest.to_vec(), kinds: kinds.to_vec(), operands }
}

/// Some density for n lines. With few lines, and with many operands in many lines, most sets are empty or full, which
/// shows little.
pub fn density(random: &mut Random, n: usize) -> Density {
    match random.between(0, 9) {
        0 => Density::Share(95),
        1 => Density::Share(50),
        2 => Density::Share(random.between(2, 15)),
        3..=6 if n <= 6 => Density::Share(random.between(20, 60)),
        3..=6 => Density::Few,
        _ => Density::Several,
    }
}

/// A model of n lines and 2 × h levels on which the routes need many steps: the lower bound's model for a random tree,
/// or its dual, beside lines with few operands, each idle with a chance of `idle` in a hundred and else a vote with one of
/// `votes`. The lines stand in random order.
pub fn hard_model(random: &mut Random, n: usize, h: usize, idle: usize, votes: usize) -> Model {
    let leaves = random.between(n.div_ceil(2), n);
    let gaps = gaps(random, h, leaves - 1);
    let mut model = lower_bound_model(&Tree::from_gaps(h, &gaps).expect("the gaps are the tree's"));
    if random.chance(50) {
        model = model.dual();
    }
    add_lines(random, &mut model, n, idle, votes);
    let mut place: Vec<usize> = (0..n).collect();
    shuffle(random, &mut place);
    moved(&model, &place)
}

/// Adds lines up to n, which have few operands among all n, each idle with a chance of `idle` in a hundred and else a vote with one of
/// `votes`.
fn add_lines(random: &mut Random, model: &mut Model, n: usize, idle: usize, votes: usize) {
    let own = model.lines();
    for i in own..n {
        model.kinds.push(any_or_all(random, 50));
        model.operands.push(operands(random, i, n, model.levels(), Density::Few, idle));
    }
    add_votes(random, &mut model.kinds[own..], &model.operands[own..], votes);
}

/// The model with each line in its new place.
fn moved(model: &Model, place: &[usize]) -> Model {
    let n = model.lines();
    let mut moved =
        Model { greatest: model.greatest.clone(), kinds: vec![Kind::Any; n], operands: vec![Vec::new(); n] };
    for (i, of_line) in model.operands.iter().enumerate() {
        let move_to = |o: &Operand| Operand { level: o.level, line: place[o.line] };
        moved.kinds[place[i]] = model.kinds[i];
        moved.operands[place[i]] = of_line.iter().map(move_to).collect();
        moved.operands[place[i]].sort();
    }
    moved
}

/// A model of n lines that can all be met from line 0, of which so many are good between no line and all lines, in any places; half
/// of the models have no votes. Level 1 is least and level 2 greatest. In some order, line 0 first, each line is an operand of one before
/// it, at either level or both. It is good or not by its operands, or by itself whatever they are.
pub fn model_with_good_lines(random: &mut Random, n: usize, good: usize) -> Model {
    let mut is_good: Vec<bool> = (0..n).map(|i| i < good).collect();
    shuffle(random, &mut is_good);
    let order = order_from_0(random, n);
    let mut model =
        Model { greatest: vec![false, true], kinds: vec![Kind::Any; n], operands: vec![Vec::new(); n] };
    // A chain, or something broader.
    let chained = random.between(0, 100);
    for at in 1..n {
        let before = if random.chance(chained) { at - 1 } else { random.between(0, at - 1) };
        for &level in [&[0][..], &[1], &[0, 1]][random.between(0, 2)] {
            model.operands[order[before]].push(Operand { level, line: order[at] });
        }
    }
    let votes = random.chance(50);
    for line in 0..n {
        model.operands[line].sort();
        let all = model.operands[line].len();
        let set = model.operands[line].iter().filter(|o| is_good[o.line]).count();
        let of_votes = (1..=if votes { all } else { 0 }).map(|t| (Kind::AtLeast(t), t));
        let needs = [(Kind::Any, 1), (Kind::All, all)].into_iter().chain(of_votes);
        let fitting: Vec<Kind> =
            needs.filter(|&(_, t)| (set >= t) == is_good[line]).map(|(kind, _)| kind).collect();
        if fitting.is_empty() || random.chance(40) {
            model.decide_by_itself(line, is_good[line], votes && random.chance(50));
        } else {
            model.kinds[line] = fitting[random.between(0, fitting.len() - 1)];
        }
    }
    model
}

/// The model with so many further lines that are no operands of its own lines, so that they are not met from line 0. They stand in any
/// places but the first, and have few operands or none, which are any lines, and votes where the model has some.
pub fn with_spares(random: &mut Random, model: &Model, count: usize) -> Model {
    let n = model.lines() + count;
    let mut longer = model.clone();
    let votes = if model.has_votes() { 30 } else { 0 };
    add_lines(random, &mut longer, n, 40, votes);
    moved(&longer, &order_from_0(random, n))
}

/// A model of n lines and d levels, most often with few operands, so that many lines are not met from line 0.
pub fn sparse_model(random: &mut Random, n: usize, d: usize) -> Model {
    let signs = signs(random, d);
    let density = if random.chance(70) { Density::Few } else { density(random, n) };
    model(random, n, &signs, density)
}

/// A model of n lines and d levels of any of these sorts.
pub fn any_model(random: &mut Random, n: usize, d: usize) -> Model {
    if d.is_multiple_of(2) && random.chance(25) {
        let (idle, votes) = (idle_share(random), vote_share(random));
        return hard_model(random, n, d / 2, idle, votes);
    }
    let signs = signs(random, d);
    let density = density(random, n);
    model(random, n, &signs, density)
}

/// Lines and levels of a model: most often so few that the reference is quick.
pub fn mostly_small_size(random: &mut Random) -> (usize, usize) {
    let (n, d) = (random.between(1, 64), random.between(1, 8));
    if random.chance(70) {
        (n.min(6), d.min(3))
    } else {
        (n, d)
    }
}

/// Lines and levels of a model for the page: most often few levels, and else so many of both that the forecast may be over its ceiling.
pub fn size_for_page(random: &mut Random) -> (usize, usize) {
    if random.chance(80) {
        (random.between(1, 64), random.between(1, 3))
    } else {
        (random.between(56, 64), random.between(6, 8))
    }
}

/// A model of this size, its levels in any order.
pub fn model_of_size(random: &mut Random, size: Size) -> Model {
    let signs = signs_of(random, size.least, size.greatest);
    let density = density(random, size.lines);
    model(random, size.lines, &signs, density)
}

/// Models of so many lines each, of any of these sorts but with the same signs of d levels, as those have that can be joined.
pub fn models_alike<const COUNT: usize>(
    random: &mut Random,
    lines: [usize; COUNT],
    d: usize,
) -> [Model; COUNT] {
    let mut models = lines.map(|n| any_model(random, n, d));
    let signs = models[random.between(0, COUNT - 1)].greatest.clone();
    for model in &mut models {
        model.greatest.clone_from(&signs);
    }
    models
}

/// The file of a model; where it has no votes, as often its old file.
pub fn file(random: &mut Random, model: &Model) -> Vec<u8> {
    if !model.has_votes() && random.chance(50) {
        model.old_file()
    } else {
        model.file()
    }
}

/// The file of some model of n lines and d levels.
pub fn some_file(random: &mut Random, n: usize, d: usize) -> Vec<u8> {
    let model = any_model(random, n, d);
    file(random, &model)
}

// ---- bounds ----

/// A within B within the n lines: often empty and full, now and then equal.
pub fn bounds(random: &mut Random, n: usize) -> (u64, u64) {
    let all = full(n);
    match random.between(0, 7) {
        0..=2 => (0, all),
        3 => (0, random.word() & all),
        4 => (random.word() & all, all),
        5 => {
            let both = random.word() & all;
            (both, both)
        }
        _ => {
            let b = (random.word() | random.word()) & all;
            (random.word() & random.word() & b, b)
        }
    }
}

/// Bounds that are refused: a bit of n or more, or a line of A that B lacks.
pub fn bad_bounds(random: &mut Random, n: usize) -> (u64, u64) {
    let (a, b) = bounds(random, n);
    let line = 1 << random.between(0, n - 1);
    if n == 64 || random.chance(40) {
        return (a | line, b & !line);
    }
    let stray = 1 << random.between(n, 63);
    match random.between(0, 2) {
        0 => (a | stray, b),
        1 => (a, b | stray),
        _ => (a | stray, b | stray),
    }
}

/// A model with its file and bounds.
#[derive(Clone, Debug)]
pub struct Case {
    pub model: Model,
    pub file: Vec<u8>,
    pub a: u64,
    pub b: u64,
}

impl Case {
    pub fn new(random: &mut Random, model: Model, (a, b): (u64, u64)) -> Case {
        let file = file(random, &model);
        Case { model, file, a, b }
    }

    /// The bounds as sets.
    pub fn bounds(&self) -> (Set, Set) {
        let n = self.model.lines();
        (set_of(self.a, n), set_of(self.b, n))
    }
}

/// A case that is judged.
pub fn case(random: &mut Random, n: usize, d: usize) -> Case {
    let model = any_model(random, n, d);
    let bounds = bounds(random, n);
    Case::new(random, model, bounds)
}

/// A case of this size that is judged.
pub fn case_of_size(random: &mut Random, size: Size) -> Case {
    let model = model_of_size(random, size);
    let bounds = bounds(random, size.lines);
    Case::new(random, model, bounds)
}

/// A case for the nested fixpoint by its definition, which makes 2 to the power n × d queries. Most small models have
/// one of their bounds as their set, so a few are drawn until one has another.
pub fn small_case(random: &mut Random) -> Case {
    let most = if random.chance(5) { 15 } else { 12 };
    let n = [1, 2, 3, 3, 4, 4, 5, 5, 6][random.between(0, 8)];
    let d = random.between(1, (most / n).min(8));
    let mut drawn = case(random, n, d);
    for _ in 0..4 {
        let (a, b) = drawn.bounds();
        let set = winning_lines(&drawn.model, &a, &b);
        if set != a && set != b {
            break;
        }
        drawn = case(random, n, d);
    }
    drawn
}

/// A case with its file damaged, its bounds bad, both or neither.
pub fn troubled_case(random: &mut Random, n: usize, d: usize) -> Case {
    let mut case = case(random, n, d);
    if random.chance(60) {
        damage_file_often(random, &mut case.file, n, d);
    }
    if random.chance(40) {
        (case.a, case.b) = bad_bounds(random, n);
    }
    case
}

// ---- trees ----

/// The gaps of a tree of height h of 1 or more.
pub fn gaps(random: &mut Random, h: usize, count: usize) -> Vec<u8> {
    // A favoured gap makes some trees broad at the root and others at the leaves.
    let favoured = random.between(1, h);
    let strength = random.between(0, 90);
    (0..count).map(|_| if random.chance(strength) { favoured } else { random.between(1, h) } as u8).collect()
}

/// The gaps of a tree of height h, 0 included, with at most so many gaps.
pub fn tree(random: &mut Random, h: usize, most: usize) -> Vec<u8> {
    if h == 0 {
        return Vec::new();
    }
    let count = random.between(0, most);
    gaps(random, h, count)
}

/// Bytes that are no lent tree of height h: too many, or with a gap of 0 or above the height.
pub fn bad_tree(random: &mut Random, h: usize) -> Vec<u8> {
    let count = [1, 2, 10, 1023][random.between(0, 3)];
    let mut bytes = gaps(random, h.max(1), count);
    if h == 0 {
        return bytes;
    }
    let at = random.between(0, count - 1);
    match random.between(0, 4) {
        0 => bytes[at] = 0,
        1 => bytes[at] = h as u8 + 1,
        2 => bytes[at] = random.between(h + 1, 255) as u8,
        3 => bytes = gaps(random, h, 1024),
        _ => {
            let count = random.between(1025, 5000);
            bytes = gaps(random, h, count);
        }
    }
    bytes
}

// ---- damage ----

/// A count that no model has: none, one too many, or far too many.
fn bad_count(random: &mut Random, most: usize, largest: usize) -> usize {
    match random.between(0, 3) {
        0 => 0,
        1 => most + 1,
        2 => largest,
        _ => random.between(most + 1, largest),
    }
}

/// Whether a file of n lines and d levels is an old one, by its third offset.
pub fn is_old(file: &[u8], n: usize, d: usize) -> bool {
    file[12..16] == ((16 + d + n) as u32).to_le_bytes()
}

/// What can be wrong with a file, by the number of its refusal, in the order in which it is looked for.
pub const FILE_DAMAGES: [u64; 8] = [1, 2, 3, 4, 5, 6, 7, 14];

/// Damages a file of n lines and d levels so that refusal `number` applies. Refusal 7 cannot apply to 64 lines, nor 14 to an old
/// file; such files stay as they are. Of several damages the later refusals' go first, as the others cut the file or move it.
pub fn damage_file(random: &mut Random, file: &mut Vec<u8>, n: usize, d: usize, number: u64) {
    let old = is_old(file, n, d);
    let (kinds_at, record) = (16 + d, if old { 1 } else { 2 });
    let words_at = kinds_at + record * n;
    match number {
        1 => file.truncate(random.between(0, 15)),
        2 => file[0..2].copy_from_slice(&(bad_count(random, 64, 65535) as u16).to_le_bytes()),
        3 => file[2..4].copy_from_slice(&(bad_count(random, 8, 65535) as u16).to_le_bytes()),
        4 if random.chance(50) => {
            let byte = random.between(4, 11);
            file[byte] ^= random.between(1, 255) as u8;
        }
        4 => {
            // A third offset that is neither the old one nor the new one: near them, or far.
            let right = [kinds_at + n, kinds_at + 2 * n];
            let mut offset = right[0];
            while right.contains(&offset) {
                offset = match random.between(0, 2) {
                    0 => random.between(kinds_at, kinds_at + 3 * n),
                    1 => right[random.between(0, 1)] + [256, 1 << 16, 1 << 24][random.between(0, 2)],
                    _ => random.word() as u32 as usize,
                };
            }
            file[12..16].copy_from_slice(&(offset as u32).to_le_bytes());
        }
        5 => match random.between(0, 4) {
            0 => file.truncate(file.len() - 1),
            1 => file.push(0),
            2 => file.truncate(random.between(16, file.len() - 1)),
            // The length that the other layout has.
            3 if old => file.extend(random.bytes(n)),
            3 => file.truncate(file.len() - n),
            _ => {
                let extra = random.between(1, 5000);
                file.extend(random.bytes(extra));
            }
        },
        6 if random.chance(50) => file[random.between(16, kinds_at - 1)] = over(random, 1),
        6 => {
            let largest_kind = if old { 1 } else { 2 };
            file[kinds_at + record * random.between(0, n - 1)] = over(random, largest_kind);
        }
        7 if n < 64 => {
            let word = words_at + 8 * random.between(0, n * d - 1);
            let line = random.between(n, 63);
            file[word + line / 8] |= 1 << (line % 8);
        }
        14 if !old => {
            let i = random.between(0, n - 1);
            let words = &file[words_at + 8 * d * i..words_at + 8 * d * (i + 1)];
            let operands = words.iter().map(|byte| byte.count_ones() as usize).sum();
            let (kind, t) = bad_threshold(random, operands);
            (file[kinds_at + 2 * i], file[kinds_at + 2 * i + 1]) = (kind, t);
        }
        _ => {}
    }
}

/// A file of n lines, fewer than 64, and d levels, to which refusal `number` applies and no other.
pub fn damaged_file(random: &mut Random, n: usize, d: usize, number: u64) -> Vec<u8> {
    let model = any_model(random, n, d);
    let mut file = if number == 14 { model.file() } else { file(random, &model) };
    damage_file(random, &mut file, n, d, number);
    file
}

/// The same, of any size.
pub fn some_damaged_file(random: &mut Random, number: u64) -> Vec<u8> {
    let (n, d) = (random.between(1, 63), random.between(1, 8));
    damaged_file(random, n, d, number)
}

/// A byte over `most`, often the next one.
fn over(random: &mut Random, most: u8) -> u8 {
    if random.chance(30) {
        most + 1
    } else {
        random.between(most as usize + 1, 255) as u8
    }
}

/// A kind and a threshold that do not go together in a line of so many operands.
fn bad_threshold(random: &mut Random, operands: usize) -> (u8, u8) {
    match random.between(0, 3) {
        0 => (random.between(0, 1) as u8, over(random, 0)),
        1 if operands < 255 => (2, operands as u8 + 1),
        2 if operands < 255 => (2, over(random, operands as u8)),
        _ => (2, 0),
    }
}

/// Damages a file of n lines and d levels in one to three ways.
pub fn damage_file_often(random: &mut Random, file: &mut Vec<u8>, n: usize, d: usize) {
    let ways = random.between(1, 3);
    let mut numbers: Vec<u64> = (0..ways).map(|_| FILE_DAMAGES[random.between(0, 7)]).collect();
    numbers.sort();
    numbers.dedup();
    for number in numbers.into_iter().rev() {
        damage_file(random, file, n, d, number);
    }
}

/// Two files of at most so many lines each and d levels: damaged or not, or with other levels or another sign in one of them.
pub fn troubled_pair(random: &mut Random, most: usize, d: usize) -> [Vec<u8>; 2] {
    let lines = [random.between(1, most), random.between(1, most)];
    let mut models = models_alike(random, lines, d);
    let changed = &mut models[random.between(0, 1)];
    match random.between(0, 9) {
        0 => changed.greatest[random.between(0, d - 1)] ^= true,
        1 => {
            let levels = random.between(1, 8);
            *changed = any_model(random, changed.lines(), levels);
        }
        _ => {}
    }
    models.map(|model| {
        let mut file = file(random, &model);
        if random.chance(25) {
            damage_file_often(random, &mut file, model.lines(), model.levels());
        }
        file
    })
}

/// What writing takes, but for the buffer.
#[derive(Clone, Debug)]
pub struct Written {
    pub n: usize,
    pub d: usize,
    pub parts: Parts,
}

/// What can be wrong with it, by the number of its refusal; a buffer too short is not among these. Of several damages
/// the last of these goes last.
pub const WRITTEN_DAMAGES: [u64; 6] = [2, 3, 6, 7, 14, 13];

/// Damages what is to be written so that refusal `number` applies; 7 cannot apply to 64 lines.
pub fn damage_written(random: &mut Random, written: &mut Written, number: u64) {
    let (n, d) = (written.parts.kinds.len(), written.parts.signs.len());
    let parts = &mut written.parts;
    match number {
        2 => written.n = bad_count(random, 64, usize::MAX),
        3 => written.d = bad_count(random, 8, usize::MAX),
        6 if random.chance(50) => parts.signs[random.between(0, d - 1)] = over(random, 1),
        6 => parts.kinds[random.between(0, n - 1)] = over(random, 2),
        7 if n < 64 => parts.words[random.between(0, n * d - 1)] |= 1 << random.between(n, 63),
        14 => {
            let i = random.between(0, n - 1);
            let operands =
                parts.words[d * i..d * (i + 1)].iter().map(|word| word.count_ones() as usize).sum();
            (parts.kinds[i], parts.thresholds[i]) = bad_threshold(random, operands);
        }
        13 => match random.between(0, 7) {
            0 => parts.signs.push(0),
            1 => parts.kinds.push(1),
            2 => parts.thresholds.push(0),
            3 => parts.words.push(1),
            4 => parts.signs.truncate(d - 1),
            5 => parts.kinds.truncate(random.between(0, n - 1)),
            6 => parts.thresholds.truncate(random.between(0, n - 1)),
            _ => parts.words.truncate(random.between(0, n * d - 1)),
        },
        _ => {}
    }
}
