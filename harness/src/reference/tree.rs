//! Trees as linked nodes: gaps, the built-in trees, fitting, universal trees, and the models of document 001's
//! lower bound.

use super::model::{Kind, Model, Operand};

/// A node with its children; without any it is a leaf. All leaves of a tree are equally deep.
#[derive(Clone, Debug, PartialEq, Eq)]
pub struct Tree {
    pub children: Vec<Tree>,
}

impl Tree {
    /// The tree of height h with one leaf.
    pub fn path(h: usize) -> Tree {
        let children = if h == 0 { Vec::new() } else { vec![Tree::path(h - 1)] };
        Tree { children }
    }

    pub fn height(&self) -> usize {
        self.children.first().map_or(0, |child| 1 + child.height())
    }

    pub fn leaf_count(&self) -> u64 {
        if self.children.is_empty() {
            1
        } else {
            self.children.iter().map(Tree::leaf_count).sum()
        }
    }

    /// The tree of height h with these gaps: one leaf after the other is hung below the last leaf's ancestor that is
    /// as many edges up as the gap says. None if a gap is 0 or above the height.
    pub fn from_gaps(h: usize, gaps: &[u8]) -> Option<Tree> {
        let mut tree = Tree::path(h);
        for &gap in gaps {
            let up = gap as usize;
            if up == 0 || up > h {
                return None;
            }
            let mut ancestor = &mut tree;
            for _ in up..h {
                ancestor = ancestor.children.last_mut().expect("a node above the leaves has a child");
            }
            ancestor.children.push(Tree::path(up - 1));
        }
        Some(tree)
    }

    /// For each leaf, the numbers of the children on the way to it from the root.
    fn ways(&self) -> Vec<Vec<usize>> {
        if self.children.is_empty() {
            return vec![Vec::new()];
        }
        let mut ways = Vec::new();
        for (number, child) in self.children.iter().enumerate() {
            ways.extend(child.ways().into_iter().map(|way| [vec![number], way].concat()));
        }
        ways
    }

    /// How far up each two neighbouring leaves first meet.
    pub fn gaps(&self) -> Vec<u8> {
        let meet = |pair: &[Vec<usize>]| {
            let common = pair[0].iter().zip(&pair[1]).take_while(|(left, right)| left == right);
            (pair[0].len() - common.count()) as u8
        };
        self.ways().windows(2).map(meet).collect()
    }

    /// The built-in tree S(n, h), for n of 1 or more.
    pub fn built_in(n: usize, h: usize) -> Tree {
        let children = if h == 0 { Vec::new() } else { built_in_children(n, h) };
        Tree { children }
    }

    /// Whether the tree fits in `other`, which has its height.
    pub fn fits_in(&self, other: &Tree) -> bool {
        in_order(&self.children, &other.children)
    }

    /// Whether every tree of height h, this tree's height, with 1 to n leaves fits in it.
    pub fn is_universal_for(&self, n: usize, h: usize) -> bool {
        (1..=n).all(|leaves| Tree::all(h, leaves).iter().all(|tree| tree.fits_in(self)))
    }

    /// Every tree of height h with so many leaves.
    pub fn all(h: usize, leaves: usize) -> Vec<Tree> {
        let mut lists = vec![Vec::new()];
        for _ in 1..leaves {
            let longer = |list: Vec<u8>| (1..=h as u8).map(move |gap| [&list[..], &[gap]].concat());
            lists = lists.into_iter().flat_map(longer).collect();
        }
        lists.iter().filter_map(|gaps| Tree::from_gaps(h, gaps)).collect()
    }
}

fn built_in_children(n: usize, h: usize) -> Vec<Tree> {
    if n == 0 {
        return Vec::new();
    }
    let mut children = built_in_children(n / 2, h);
    children.push(Tree::built_in(n, h - 1));
    children.extend(built_in_children((n - 1) / 2, h));
    children
}

/// Whether the first list's trees fit, in order, in different trees of the second. Every choice is tried.
fn in_order(trees: &[Tree], places: &[Tree]) -> bool {
    let Some((tree, trees_left)) = trees.split_first() else {
        return true;
    };
    let Some((place, places_left)) = places.split_first() else {
        return false;
    };
    (tree.fits_in(place) && in_order(trees_left, places_left)) || in_order(trees, places_left)
}

/// The model of document 001's lower bound for a tree T of height h of 1 or more: one line for each leaf, h greatest
/// and h least levels. Its nested fixpoint between empty and full has all lines, and so has its restricted set over U
/// and a universal V exactly if T fits in U.
pub fn lower_bound_model(tree: &Tree) -> Model {
    let ways = tree.ways();
    let (n, h) = (ways.len(), tree.height());
    let mut operands = vec![Vec::new(); n];
    for (i, of_line) in operands.iter_mut().enumerate() {
        for up in 0..h {
            // The leaves below leaf i's ancestor that is `up` edges above it.
            let below = |leaf: &usize| ways[*leaf][..h - up] == ways[i][..h - up];
            let first = (0..n).find(below).expect("leaf i is below its ancestor");
            let last = (0..n).rfind(below).expect("leaf i is below its ancestor");
            of_line.extend((0..=last).map(|line| Operand { level: 2 * up, line }));
            of_line.extend((0..first).map(|line| Operand { level: 2 * up + 1, line }));
        }
    }
    let greatest = (0..2 * h).map(|level| level % 2 == 0).collect();
    Model { greatest, kinds: vec![Kind::All; n], operands }
}
