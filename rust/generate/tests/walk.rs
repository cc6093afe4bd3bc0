//! The walk as document 01 tells it, along the links of the tree: it lists what fits, and its looks are the formula's.

use account::call::{Spell, Urgency};
use account::entry::order;
use account::limits::{LAST_DAY, MOST_SPELLS};
use account::published::Published;
use account::tree::Tree;
use generate::rng::Rng;
use generate::Generator;

/// A walk for the spells that last to the day l: the positions that it found, and one look for each test of a last day.
struct Walk<'a> {
    spells: &'a [Spell],
    tree: &'a Tree,
    l: u16,
    found: Vec<usize>,
    looks: usize,
}

impl Walk<'_> {
    /// The position and those behind it along a link, while they fit.
    fn follow(&mut self, first: Option<usize>, link: &[Option<usize>]) -> Vec<usize> {
        let (mut run, mut next) = (Vec::new(), first);
        while let Some(at) = next {
            self.looks += 1;
            if self.spells[at].last < self.l {
                break;
            }
            run.push(at);
            next = link[at];
        }
        run
    }

    /// The head, its chain, and what hangs off its left sibling, from the lowest up.
    fn visit(&mut self, head: usize) {
        let tree = self.tree;
        let chain = self.follow(tree.next[head], &tree.next);
        self.found.push(head);
        self.found.extend(chain);
        let below = self.follow(tree.left_sibling[head], &tree.last_child);
        below.into_iter().rev().for_each(|head| self.visit(head));
    }
}

/// The walk for the test "first at most h, last at least l".
fn check(published: &Published, h: u16, l: u16) {
    let listed = published.fitting(|spell| spell.first <= h && spell.last >= l);
    let (spells, tree) = (&published.spells[..], published.tree());
    let mut walk = Walk { spells, tree, l, found: Vec::new(), looks: 0 };
    tree.path(&listed).into_iter().for_each(|head| walk.visit(head));
    walk.found.reverse();
    assert_eq!((&walk.found, walk.looks), (&listed, tree.looks(&listed)), "{spells:?}, h {h}, l {l}");
    assert!(walk.looks <= 3 * listed.len());
}

/// A short list on few days, where chains, nestings and overlaps are common.
fn small_list(rng: &mut Rng) -> Vec<Spell> {
    let reach = rng.range(1, 30);
    let spell = |number| {
        let (a, b) = (rng.range(1, reach) as u16, rng.range(1, reach) as u16);
        Spell { number, candidate: 1, first: a.min(b), last: a.max(b), urgency: Urgency::Grade(1) }
    };
    let mut spells: Vec<Spell> = (1..=25).map(spell).collect();
    rng.shuffle(&mut spells);
    spells.truncate(rng.range(0, 25));
    spells.sort_by_key(order);
    spells
}

#[test]
fn small_lists() {
    let mut rng = Rng::new(1);
    for _ in 0..400 {
        let published = Published::of(&small_list(&mut rng), 1);
        for _ in 0..30 {
            let (a, b) = (rng.range(1, 32) as u16, rng.range(1, 32) as u16);
            check(&published, a.max(b), a.min(b));
        }
        published.spells.iter().for_each(|spell| check(&published, spell.first, spell.last));
    }
}

#[test]
fn a_full_waiting_list() {
    let published = Published::of(&Generator::new(1).waiting_list(MOST_SPELLS), 1);
    for d in (1..LAST_DAY).step_by(97) {
        check(&published, d, d);
        check(&published, (d + 30).min(LAST_DAY), d);
    }
}
