//! The tree of a report: who is whose parent, child and sibling, by the tags.

use crate::records::Tag;

/// A tree of labelled elements, numbered from 0 in order of opening.
pub struct Tree {
    labels: Vec<u16>,
    parents: Vec<Option<usize>>,
    children: Vec<Vec<usize>>,
    /// For each element, those that have it among their ancestors.
    descendants: Vec<Vec<usize>>,
    /// For each element, its number among its siblings.
    ranks: Vec<usize>,
    root: [usize; 1],
}

impl Tree {
    /// The tree that the tags open; elements that they leave open count as closed.
    pub fn of(tags: &[Tag]) -> Tree {
        let mut tree =
            Tree { labels: vec![], parents: vec![], children: vec![], descendants: vec![], ranks: vec![], root: [0] };
        let mut open = vec![];
        for tag in tags {
            match tag {
                Tag::Open(label) => {
                    let s = tree.add(*label, open.last().copied());
                    open.push(s);
                }
                Tag::Close => {
                    open.pop();
                }
            }
        }
        tree
    }

    fn add(&mut self, label: u16, parent: Option<usize>) -> usize {
        let s = self.labels.len();
        self.labels.push(label);
        self.parents.push(parent);
        self.children.push(vec![]);
        self.descendants.push(vec![]);
        self.ranks.push(parent.map_or(0, |p| self.children[p].len()));
        if let Some(p) = parent {
            self.children[p].push(s);
        }
        let above: Vec<usize> = self.ancestors(s).collect();
        for t in above {
            self.descendants[t].push(s);
        }
        s
    }

    /// How many elements there are.
    pub fn size(&self) -> usize {
        self.labels.len()
    }

    pub fn label(&self, s: usize) -> u16 {
        self.labels[s]
    }

    pub fn parent(&self, s: usize) -> Option<usize> {
        self.parents[s]
    }

    pub fn children(&self, s: usize) -> &[usize] {
        &self.children[s]
    }

    /// The ancestors of an element, its parent first.
    pub fn ancestors(&self, s: usize) -> impl Iterator<Item = usize> + '_ {
        std::iter::successors(self.parent(s), |t| self.parent(*t))
    }

    pub fn descendants(&self, s: usize) -> &[usize] {
        &self.descendants[s]
    }

    /// The root is at level 0, a child one level below its parent.
    pub fn level(&self, s: usize) -> usize {
        self.ancestors(s).count()
    }

    /// The element and its siblings, in order.
    pub fn siblings(&self, s: usize) -> &[usize] {
        match self.parent(s) {
            Some(p) => self.children(p),
            None => &self.root,
        }
    }

    /// The element's place among its siblings.
    pub fn rank(&self, s: usize) -> usize {
        self.ranks[s]
    }

    pub fn next(&self, s: usize) -> Option<usize> {
        self.siblings(s).get(self.rank(s) + 1).copied()
    }

    pub fn previous(&self, s: usize) -> Option<usize> {
        self.rank(s).checked_sub(1).map(|rank| self.siblings(s)[rank])
    }

    /// The way between an element and an ancestor of it: both and every element between, the lowest first.
    pub fn way(&self, low: usize, high: usize) -> impl Iterator<Item = usize> + '_ {
        let past = self.parent(high);
        std::iter::once(low).chain(self.ancestors(low)).take_while(move |u| Some(*u) != past)
    }
}
