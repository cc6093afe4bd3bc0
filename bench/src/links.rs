//! The tree of a list of rows as links by position, and the walk along them with its looks counted.
//!
//! Rows are pairs of first and last day, sorted. Positions go from 0 to n - 1, and a link that leads nowhere is NONE.

pub const NONE: u16 = u16::MAX;

#[derive(Default)]
pub struct Links {
    pub first: Vec<u16>,
    pub last: Vec<u16>,
    parent: Vec<u16>,
    left_sibling: Vec<u16>,
    last_child: Vec<u16>,
    next_in_chain: Vec<u16>,
    /// By day: the head with the greatest first day among those that stand on the day.
    start: Vec<u16>,
    /// By day: the head with the greatest first day among those that begin by the day.
    begun: Vec<u16>,
}

/// What a walk has found, positions falling, and the looks it took.
pub struct Walk<'a> {
    links: &'a Links,
    least_last: u16,
    pub found: &'a mut Vec<u16>,
    pub looks: usize,
}

impl Links {
    pub fn new(rows: &[(u16, u16)], last_day: u16) -> Links {
        let mut links = Links {
            first: rows.iter().map(|row| row.0).collect(),
            last: rows.iter().map(|row| row.1).collect(),
            parent: vec![NONE; rows.len()],
            left_sibling: vec![NONE; rows.len()],
            last_child: vec![NONE; rows.len()],
            next_in_chain: vec![NONE; rows.len()],
            ..Links::default()
        };
        links.link_chains();
        links.link_heads();
        links.index_days(last_day);
        links
    }

    fn is_head(&self, at: usize) -> bool {
        self.first.get(at + 1) != Some(&self.first[at])
    }

    fn link_chains(&mut self) {
        for at in 1..self.first.len() {
            if !self.is_head(at - 1) {
                self.next_in_chain[at] = at as u16 - 1;
            }
        }
    }

    /// Each head climbs from the head before it to the first that lasts as long, which is its parent; the last one
    /// passed on the way is its left sibling.
    fn link_heads(&mut self) {
        let mut before = NONE;
        for at in 0..self.first.len() {
            if !self.is_head(at) {
                continue;
            }
            let (mut up, mut passed) = (before, NONE);
            while up != NONE && self.last[up as usize] < self.last[at] {
                passed = up;
                up = self.parent[up as usize];
            }
            self.parent[at] = up;
            self.left_sibling[at] = passed;
            if up != NONE {
                self.last_child[up as usize] = at as u16;
            }
            before = at as u16;
        }
    }

    /// A day's start is the head that begins on it, or the nearest ancestor of the last start that still stands.
    fn index_days(&mut self, last_day: u16) {
        let (mut start, mut begun, mut at) = (NONE, NONE, 0);
        for day in 0..=last_day {
            while start != NONE && self.last[start as usize] < day {
                start = self.parent[start as usize];
            }
            while at < self.first.len() && self.first[at] == day {
                start = at as u16;
                begun = at as u16;
                at += 1;
            }
            self.start.push(start);
            self.begun.push(begun);
        }
    }

    pub fn start_of_day(&self, d: u16) -> u16 {
        self.start[d as usize]
    }

    /// The last head to begin by b if it begins on a or later, else the start of day a.
    pub fn start_of_span(&self, a: u16, b: u16) -> u16 {
        let begun = self.begun[b as usize];
        if begun != NONE && self.first[begun as usize] >= a {
            begun
        } else {
            self.start[a as usize]
        }
    }

    /// Walks from a start over the rows that last to `least_last` or longer, and returns the looks.
    pub fn walk(&self, start: u16, least_last: u16, found: &mut Vec<u16>) -> usize {
        let mut walk = Walk { links: self, least_last, found, looks: 0 };
        let mut head = start;
        while head != NONE {
            walk.visit(head);
            head = self.parent[head as usize];
        }
        walk.looks
    }
}

impl Walk<'_> {
    fn fits(&mut self, at: u16) -> bool {
        if at == NONE {
            return false;
        }
        self.looks += 1;
        self.links.last[at as usize] >= self.least_last
    }

    /// A head, its chain while it fits, and what hangs off its left sibling.
    fn visit(&mut self, head: u16) {
        self.found.push(head);
        let mut next = self.links.next_in_chain[head as usize];
        while self.fits(next) {
            self.found.push(next);
            next = self.links.next_in_chain[next as usize];
        }
        let left = self.links.left_sibling[head as usize];
        if self.fits(left) {
            self.descend(left);
        }
    }

    /// A head that fits, after the last children below it that fit, from the lowest up.
    fn descend(&mut self, head: u16) {
        let child = self.links.last_child[head as usize];
        if self.fits(child) {
            self.descend(child);
        }
        self.visit(head);
    }
}
