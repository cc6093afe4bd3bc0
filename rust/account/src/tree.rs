//! The tree over the published list, by its definitions, and the looks by the formula.
//!
//! A spell is known by its position in the list. Positions rise with the first day, so that among heads the greatest
//! position is that of the greatest first day; spells of one first day stand side by side, their head last.

use crate::call::Spell;

/// Links from position to position. Only heads have a parent, a left sibling and a last child.
#[derive(Clone, Default)]
pub struct Tree {
    pub head: Vec<bool>,
    pub next: Vec<Option<usize>>,
    pub parent: Vec<Option<usize>>,
    pub left_sibling: Vec<Option<usize>>,
    pub last_child: Vec<Option<usize>>,
}

impl Tree {
    pub fn of(spells: &[Spell]) -> Tree {
        let count = spells.len();
        let mut tree = Tree { last_child: vec![None; count], ..Tree::default() };
        for at in 0..count {
            let begins_with = |other: usize| spells[other].first == spells[at].first;
            tree.head.push(at + 1 == count || !begins_with(at + 1));
            tree.next.push(at.checked_sub(1).filter(|&before| begins_with(before)));
        }
        for at in 0..count {
            let contains = |up: usize| spells[up].first < spells[at].first && spells[up].last >= spells[at].last;
            let parent = tree.head_before(at, contains);
            let left = tree.head_before(at, |left| tree.parent[left] == parent);
            tree.parent.push(parent);
            tree.left_sibling.push(left);
            // a later child takes the place of an earlier one
            if let Some(up) = parent {
                tree.last_child[up] = Some(at);
            }
        }
        tree
    }

    /// The head with the greatest first day below that of the head at this position of which this is true.
    fn head_before(&self, at: usize, is: impl Fn(usize) -> bool) -> Option<usize> {
        (0..at).rev().find(|&before| self.head[at] && self.head[before] && is(before))
    }

    /// The start of a question, which is the listed head with the greatest first day, and its ancestors.
    pub fn path(&self, listed: &[usize]) -> Vec<usize> {
        let start = listed.iter().copied().filter(|&at| self.head[at]).max();
        std::iter::successors(start, |&at| self.parent[at]).collect()
    }

    /// The formula: listed spells with a next one, heads with a left sibling, and heads off the path with a child.
    pub fn looks(&self, listed: &[usize]) -> usize {
        let path = self.path(listed);
        let count = |counts: &dyn Fn(usize) -> bool| listed.iter().filter(|&&at| counts(at)).count();
        let with_next = count(&|at| self.next[at].is_some());
        let with_left = count(&|at| self.left_sibling[at].is_some());
        let off_path_with_child = count(&|at| !path.contains(&at) && self.last_child[at].is_some());
        with_next + with_left + off_path_with_child
    }
}
