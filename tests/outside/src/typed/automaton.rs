//! An automaton with a stack, by shift and reduce: its table is worked out from the rules of a grammar, and then it
//! goes through a text byte by byte. (The method is known as SLR(1).)
//!
//! Two things come with the method. A grammar for whose rules the table has one action at each place is not ambiguous.
//! And what has been shifted is always the beginning of some text of the grammar: so where no action is left, the
//! number of bytes shifted is the length of the longest beginning of the input with which a text of the grammar begins.

use std::collections::{BTreeMap, BTreeSet};
use std::ops::Range;

/// A symbol of a rule: one byte of a range, or a part of the grammar.
#[derive(Clone, Copy, PartialEq, Eq, PartialOrd, Ord)]
pub enum Symbol<P> {
    Byte(u8, u8),
    Part(P),
}

/// A rule: a part may be these symbols, at least one, in this order.
pub struct Rule<P> {
    pub part: P,
    pub symbols: Vec<Symbol<P>>,
}

/// What comes next in a text: a byte, or its end.
const END: usize = 256;
type Nexts = BTreeSet<usize>;

/// A rule with a mark in it: how many of its symbols have been met.
type Item = (usize, usize);

#[derive(Clone, Copy, PartialEq, Eq, Debug)]
enum Action {
    Shift(usize),
    Reduce(usize),
    Accept,
    Refuse,
}

pub struct Automaton<P> {
    rules: Vec<Rule<P>>,
    /// By state, and what comes next.
    actions: Vec<[Action; 257]>,
    /// By state: which state follows a part that has been reduced there.
    after: Vec<BTreeMap<P, usize>>,
}

impl<P: Copy + Ord> Automaton<P> {
    /// The first rule is for a whole text, and has one symbol.
    pub fn of(rules: Vec<Rule<P>>) -> Automaton<P> {
        let follows = follows(&rules);
        let mut automaton = Automaton { rules, actions: vec![], after: vec![] };
        let mut states = vec![automaton.closed([(0, 0)].into())];
        let mut state = 0;
        while state < states.len() {
            let mut actions = [Action::Refuse; 257];
            let mut after = BTreeMap::new();
            for (symbol, items) in automaton.moves(&states[state]) {
                let to = states.iter().position(|known| *known == items).unwrap_or_else(|| {
                    states.push(items);
                    states.len() - 1
                });
                match symbol {
                    Symbol::Part(part) => {
                        after.insert(part, to);
                    }
                    Symbol::Byte(low, high) => {
                        (low..=high).for_each(|byte| act(&mut actions, usize::from(byte), Action::Shift(to)));
                    }
                }
            }
            for rule in automaton.whole_rules(&states[state]) {
                if rule == 0 {
                    act(&mut actions, END, Action::Accept);
                    continue;
                }
                for next in &follows[&automaton.rules[rule].part] {
                    act(&mut actions, *next, Action::Reduce(rule));
                }
            }
            automaton.actions.push(actions);
            automaton.after.push(after);
            state += 1;
        }
        automaton
    }

    /// The items, and those of every rule that may begin at the mark of one.
    fn closed(&self, mut items: BTreeSet<Item>) -> BTreeSet<Item> {
        loop {
            let marked: BTreeSet<Symbol<P>> = items.iter().filter_map(|item| self.at_mark(*item)).collect();
            let begins = |rule: &Rule<P>| marked.contains(&Symbol::Part(rule.part));
            let more = (0..self.rules.len()).filter(|rule| begins(&self.rules[*rule])).map(|rule| (rule, 0));
            let before = items.len();
            items.extend(more);
            if items.len() == before {
                return items;
            }
        }
    }

    /// The symbol at an item's mark; none where the whole rule has been met.
    fn at_mark(&self, (rule, mark): Item) -> Option<Symbol<P>> {
        self.rules[rule].symbols.get(mark).copied()
    }

    /// Where each symbol leads that may come next.
    fn moves(&self, items: &BTreeSet<Item>) -> BTreeMap<Symbol<P>, BTreeSet<Item>> {
        let mut moves: BTreeMap<Symbol<P>, BTreeSet<Item>> = BTreeMap::new();
        for (rule, mark) in items {
            if let Some(symbol) = self.at_mark((*rule, *mark)) {
                moves.entry(symbol).or_default().insert((*rule, mark + 1));
            }
        }
        moves.into_iter().map(|(symbol, items)| (symbol, self.closed(items))).collect()
    }

    fn whole_rules(&self, items: &BTreeSet<Item>) -> Vec<usize> {
        items.iter().filter(|item| self.at_mark(**item).is_none()).map(|(rule, _)| *rule).collect()
    }

    /// Goes through a text. `met` is told each rule once the whole of it has been met, inner ones first, and where.
    /// Gives how many bytes a text of the grammar can begin with, where the text is none.
    pub fn read(&self, text: &[u8], mut met: impl FnMut(usize, Range<usize>)) -> Result<(), usize> {
        // For each symbol that has been met, the state after it and where it begins.
        let mut stack = vec![(0, 0)];
        let mut at = 0;
        loop {
            let (state, _) = stack[stack.len() - 1];
            let next = text.get(at).map_or(END, |byte| usize::from(*byte));
            match self.actions[state][next] {
                Action::Shift(to) => {
                    stack.push((to, at));
                    at += 1;
                }
                Action::Reduce(rule) => {
                    let Rule { part, symbols } = &self.rules[rule];
                    let kept = stack.len() - symbols.len();
                    let (_, begin) = stack[kept];
                    stack.truncate(kept);
                    let (state, _) = stack[kept - 1];
                    stack.push((self.after[state][part], begin));
                    met(rule, begin..at);
                }
                Action::Accept => return Ok(()),
                Action::Refuse => return Err(at),
            }
        }
    }
}

fn act(actions: &mut [Action; 257], next: usize, action: Action) {
    assert_eq!(actions[next], Action::Refuse, "the grammar has two ways on");
    actions[next] = action;
}

/// The bytes that each part can begin with.
fn begins<P: Copy + Ord>(rules: &[Rule<P>]) -> BTreeMap<P, Nexts> {
    let mut begins: BTreeMap<P, Nexts> = rules.iter().map(|rule| (rule.part, Nexts::new())).collect();
    grow(&mut begins, |begins| rules.iter().map(|rule| (rule.part, symbol_begins(begins, rule.symbols[0]))).collect());
    begins
}

fn symbol_begins<P: Ord>(begins: &BTreeMap<P, Nexts>, symbol: Symbol<P>) -> Nexts {
    match symbol {
        Symbol::Byte(low, high) => (usize::from(low)..=usize::from(high)).collect(),
        Symbol::Part(part) => begins[&part].clone(),
    }
}

/// What can come after each part.
fn follows<P: Copy + Ord>(rules: &[Rule<P>]) -> BTreeMap<P, Nexts> {
    let begins = begins(rules);
    let mut follows: BTreeMap<P, Nexts> = rules.iter().map(|rule| (rule.part, Nexts::new())).collect();
    follows.insert(rules[0].part, [END].into());
    grow(&mut follows, |follows| {
        let mut more = vec![];
        for rule in rules {
            for (i, symbol) in rule.symbols.iter().enumerate() {
                let Symbol::Part(part) = symbol else { continue };
                let next = match rule.symbols.get(i + 1) {
                    Some(next) => symbol_begins(&begins, *next),
                    None => follows[&rule.part].clone(),
                };
                more.push((*part, next));
            }
        }
        more
    });
    follows
}

/// Adds to the sets what is found from them, until nothing more is found.
fn grow<P: Ord>(sets: &mut BTreeMap<P, Nexts>, more: impl Fn(&BTreeMap<P, Nexts>) -> Vec<(P, Nexts)>) {
    let size = |sets: &BTreeMap<P, Nexts>| sets.values().map(Nexts::len).sum::<usize>();
    loop {
        let before = size(sets);
        for (part, found) in more(sets) {
            sets.get_mut(&part).expect("a part with a rule").extend(found);
        }
        if size(sets) == before {
            return;
        }
    }
}
