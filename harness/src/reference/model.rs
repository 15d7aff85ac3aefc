//! Sets of lines, the model, its query, and its file.

/// A set of lines: entry i says whether line i is in it.
pub type Set = Vec<bool>;

/// The set of n lines that a word stands for.
pub fn set_of(word: u64, n: usize) -> Set {
    (0..n).map(|i| word >> i & 1 == 1).collect()
}

/// The word that stands for a set.
pub fn word_of(set: &[bool]) -> u64 {
    (0..set.len()).filter(|&i| set[i]).map(|i| 1 << i).sum()
}

/// Whether every line of `x` is in `y`.
pub fn within(x: &[bool], y: &[bool]) -> bool {
    x.iter().zip(y).all(|(&in_x, &in_y)| !in_x || in_y)
}

/// Line `line` as valued at level `level` + 1.
#[derive(Clone, Copy, Debug, PartialEq, Eq, PartialOrd, Ord)]
pub struct Operand {
    pub level: usize,
    pub line: usize,
}

/// How many of a line's operands must be set.
#[derive(Clone, Copy, Debug, PartialEq, Eq)]
pub enum Kind {
    Any,
    All,
    /// A vote: so many of them, from 1 to all. A file's vote needs at most 255.
    AtLeast(usize),
}

#[derive(Clone, Debug, PartialEq, Eq)]
pub struct Model {
    /// For each level, level 1 first: whether it is greatest.
    pub greatest: Vec<bool>,
    pub kinds: Vec<Kind>,
    /// For each line: its operands, level 1 first, in the order of lines.
    pub operands: Vec<Vec<Operand>>,
}

/// A model's signs, kinds, thresholds and words, as reading fills them and writing takes them.
#[derive(Clone, Debug, PartialEq, Eq)]
pub struct Parts {
    pub signs: Vec<u8>,
    pub kinds: Vec<u8>,
    pub thresholds: Vec<u8>,
    pub words: Vec<u64>,
}

/// A little-endian number.
fn number(bytes: &[u8]) -> u64 {
    bytes.iter().rev().fold(0, |sum, &byte| sum * 256 + byte as u64)
}

impl Model {
    /// The model with these signs and these lines, each with its kind and its operands by level, from 1, and line.
    pub fn of(greatest: &[bool], lines: &[(Kind, &[(usize, usize)])]) -> Model {
        let operand = |&(level, line): &(usize, usize)| Operand { level: level - 1, line };
        Model {
            greatest: greatest.to_vec(),
            kinds: lines.iter().map(|&(kind, _)| kind).collect(),
            operands: lines.iter().map(|(_, operands)| operands.iter().map(operand).collect()).collect(),
        }
    }

    pub fn lines(&self) -> usize {
        self.kinds.len()
    }

    pub fn levels(&self) -> usize {
        self.greatest.len()
    }

    /// Whether line i is idle: it has no operands.
    pub fn is_idle(&self, i: usize) -> bool {
        self.operands[i].is_empty()
    }

    pub fn is_vote(&self, i: usize) -> bool {
        matches!(self.kinds[i], Kind::AtLeast(_))
    }

    pub fn has_votes(&self) -> bool {
        (0..self.lines()).any(|i| self.is_vote(i))
    }

    pub fn least_levels(&self) -> usize {
        self.greatest.iter().filter(|&&greatest| !greatest).count()
    }

    pub fn greatest_levels(&self) -> usize {
        self.levels() - self.least_levels()
    }

    /// F at these arguments, level 1 first.
    pub fn query(&self, arguments: &[Set]) -> Set {
        (0..self.lines())
            .map(|i| {
                let mut values = self.operands[i].iter().map(|o| arguments[o.level][o.line]);
                match self.kinds[i] {
                    Kind::Any => values.any(|set| set),
                    Kind::All => values.all(|set| set),
                    Kind::AtLeast(t) => values.filter(|&set| set).count() >= t,
                }
            })
            .collect()
    }

    /// A or (B and F): the bounded step.
    pub fn bounded_step(&self, a: &[bool], b: &[bool], arguments: &[Set]) -> Set {
        let f = self.query(arguments);
        (0..self.lines()).map(|i| a[i] || (b[i] && f[i])).collect()
    }

    /// The model with least and greatest, and any and all, exchanged. Its fixpoints are the complements. At least t of m
    /// are set exactly if fewer than m - t + 1 are not.
    pub fn dual(&self) -> Model {
        let dual = |(kind, operands): (&Kind, &Vec<Operand>)| match *kind {
            Kind::Any => Kind::All,
            Kind::All => Kind::Any,
            Kind::AtLeast(t) => Kind::AtLeast(operands.len() - t + 1),
        };
        Model {
            greatest: self.greatest.iter().map(|greatest| !greatest).collect(),
            kinds: self.kinds.iter().zip(&self.operands).map(dual).collect(),
            operands: self.operands.clone(),
        }
    }

    /// Makes line i good or not, whatever its other operands are: any of them and of itself at a greatest level, or all of them and
    /// of itself at a least one, and as a vote the same. There is such a level.
    pub fn decide_by_itself(&mut self, i: usize, good: bool, vote: bool) {
        let level = self.greatest.iter().position(|&greatest| greatest == good);
        let itself = Operand { level: level.expect("there is such a level"), line: i };
        if !self.operands[i].contains(&itself) {
            self.operands[i].push(itself);
            self.operands[i].sort();
        }
        self.kinds[i] = match (good, vote) {
            (true, false) => Kind::Any,
            (false, false) => Kind::All,
            (true, true) => Kind::AtLeast(1),
            (false, true) => Kind::AtLeast(self.operands[i].len()),
        };
    }

    /// This model's lines and behind them those of another one, which has its signs.
    pub fn joined(&self, other: &Model) -> Model {
        let behind = |o: &Operand| Operand { level: o.level, line: self.lines() + o.line };
        let mut joined = self.clone();
        for (&kind, operands) in other.kinds.iter().zip(&other.operands) {
            joined.kinds.push(kind);
            joined.operands.push(operands.iter().map(behind).collect());
        }
        joined
    }

    pub fn parts(&self) -> Parts {
        let mut words = vec![0; self.lines() * self.levels()];
        for (i, operands) in self.operands.iter().enumerate() {
            for operand in operands {
                words[i * self.levels() + operand.level] += 1 << operand.line;
            }
        }
        let bytes = |kind: &Kind| match *kind {
            Kind::Any => (0, 0),
            Kind::All => (1, 0),
            Kind::AtLeast(t) => (2, t.try_into().expect("a file's vote needs at most 255")),
        };
        let (kinds, thresholds) = self.kinds.iter().map(bytes).unzip();
        Parts {
            signs: self.greatest.iter().map(|&greatest| greatest as u8).collect(),
            kinds,
            thresholds,
            words,
        }
    }

    /// The model of n lines and d levels with these parts, or refusal 6, 7 or 14.
    pub fn from_parts(n: usize, d: usize, parts: &Parts) -> Result<Model, u64> {
        let only = |bytes: &[u8], known: &[u8]| bytes.iter().all(|byte| known.contains(byte));
        if !only(&parts.signs, &[0, 1]) || !only(&parts.kinds, &[0, 1, 2]) {
            return Err(6);
        }
        let mut operands = vec![Vec::new(); n];
        let mut stray = false;
        for (at, word) in parts.words.iter().enumerate() {
            for line in 0..64 {
                if word >> line & 1 == 1 {
                    operands[at / d].push(Operand { level: at % d, line });
                    stray |= line >= n;
                }
            }
        }
        if stray {
            return Err(7);
        }
        let mut kinds = Vec::new();
        for i in 0..n {
            kinds.push(match (parts.kinds[i], parts.thresholds[i] as usize) {
                (0, 0) => Kind::Any,
                (1, 0) => Kind::All,
                (2, t) if (1..=operands[i].len()).contains(&t) => Kind::AtLeast(t),
                _ => return Err(14),
            });
        }
        Ok(Model { greatest: parts.signs.iter().map(|&sign| sign == 1).collect(), kinds, operands })
    }

    /// The file of the model.
    pub fn file(&self) -> Vec<u8> {
        self.file_of_records(|kind, threshold| vec![kind, threshold])
    }

    /// The old file of a model without votes: its kinds have no thresholds beside them.
    pub fn old_file(&self) -> Vec<u8> {
        assert!(!self.has_votes(), "an old file has no votes");
        self.file_of_records(|kind, _| vec![kind])
    }

    /// The file with these bytes for each line's kind and threshold.
    fn file_of_records(&self, record: fn(u8, u8) -> Vec<u8>) -> Vec<u8> {
        let (n, d) = (self.lines(), self.levels());
        let Parts { signs, kinds, thresholds, words } = self.parts();
        let records: Vec<u8> = (0..n).flat_map(|i| record(kinds[i], thresholds[i])).collect();
        let mut file = Vec::new();
        file.extend([n as u8, 0, d as u8, 0]);
        for offset in [16, 16 + d, 16 + d + records.len()] {
            file.extend((offset as u32).to_le_bytes());
        }
        file.extend(signs);
        file.extend(records);
        for word in words {
            file.extend(word.to_le_bytes());
        }
        file
    }

    /// The model of a file, or the first of refusals 1 to 7 and 14.
    pub fn from_file(file: &[u8]) -> Result<Model, u64> {
        if file.len() < 16 {
            return Err(1);
        }
        let n = number(&file[0..2]) as usize;
        let d = number(&file[2..4]) as usize;
        if !(1..=64).contains(&n) {
            return Err(2);
        }
        if !(1..=8).contains(&d) {
            return Err(3);
        }
        let offsets =
            [number(&file[4..8]), number(&file[8..12]), number(&file[12..16])].map(|at| at as usize);
        let old = offsets == [16, 16 + d, 16 + d + n];
        if !old && offsets != [16, 16 + d, 16 + d + 2 * n] {
            return Err(4);
        }
        if file.len() != offsets[2] + 8 * n * d {
            return Err(5);
        }
        let records = &file[16 + d..offsets[2]];
        let (kinds, thresholds) = if old {
            (records.to_vec(), vec![0; n])
        } else {
            records.chunks(2).map(|record| (record[0], record[1])).unzip()
        };
        if old && kinds.contains(&2) {
            return Err(6);
        }
        let words = file[offsets[2]..].chunks(8).map(number).collect();
        Model::from_parts(n, d, &Parts { signs: file[16..16 + d].to_vec(), kinds, thresholds, words })
    }
}
