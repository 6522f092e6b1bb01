// Random tables: every kind and type, shapes on which each step fires and nearly fires, and ways to lay the literals into text.

use crate::table::*;

/// splitmix64
pub struct Rng(pub u64);

impl Rng {
    pub fn next(&mut self) -> u64 {
        self.0 = self.0.wrapping_add(0x9E37_79B9_7F4A_7C15);
        let mut z = self.0;
        z = (z ^ (z >> 30)).wrapping_mul(0xBF58_476D_1CE4_E5B9);
        z = (z ^ (z >> 27)).wrapping_mul(0x94D0_49BB_1331_11EB);
        z ^ (z >> 31)
    }

    pub fn below(&mut self, n: usize) -> usize {
        (self.next() % n as u64) as usize
    }

    /// True n times in a hundred.
    pub fn percent(&mut self, n: usize) -> bool {
        self.below(100) < n
    }

    pub fn pick<T: Clone>(&mut self, from: &[T]) -> T {
        from[self.below(from.len())].clone()
    }
}

pub type T = Tree<Text>;

pub fn lit(kind: u32, s: &str) -> T {
    Tree::Lit(kind, s.as_bytes().to_vec())
}
pub fn s(text: &str) -> T {
    lit(STR, text)
}
pub fn id(name: &str) -> T {
    lit(IDENT, name)
}
pub fn one(kind: u32, e: T) -> T {
    Tree::One(kind, 0, 0, Box::new(e))
}
pub fn count(kind: u32, x: u32, y: u32, e: T) -> T {
    Tree::One(kind, x, y, Box::new(e))
}
pub fn two(kind: u32, l: T, r: T) -> T {
    Tree::Two(kind, Box::new(l), Box::new(r))
}
pub fn seq(l: T, r: T) -> T {
    two(SEQ, l, r)
}
pub fn choice(l: T, r: T) -> T {
    two(CHOICE, l, r)
}
/// (!e ~ ANY)*
pub fn skip_loop(e: T) -> T {
    one(REP, seq(one(NEG_PRED, e), id("ANY")))
}
pub fn rule(name: &str, ty: u32, tree: T) -> Rule<Text> {
    Rule { name: name.as_bytes().to_vec(), ty, tree }
}

const NAMES: [&str; 24] = [
    "r", "x", "y", "z", "a", "b", "ab", "ba", "aba", "A", "AN", "ANYa", "any", "DRO", "DROPS", "PO", "POPO", "", "PEEK", "PUSH", "abab", "rr", "x1",
    "EOI",
];
const OTHERS: [&str; 12] = ["ANY", "ANY", "POP", "POP", "DROP", "PEEK", "POP_ALL", "q", "qq", "SOI", "AN", "any"];
const WORDS: [&str; 14] = ["a", "a", "b", "b", "c", "ab", "ba", "", "A", "aB", "abc", "\u{0}", "\u{7f}", "ANY"];

pub struct Gen<'a> {
    pub rng: &'a mut Rng,
    names: Vec<Text>,
    current: usize,
    shapes: usize,    // per cent of nodes that are a step's shape
    stack: bool,      // Push, POP and DROP are wanted
    large_count: bool,
}

/// A table as trees.
pub fn draft(rng: &mut Rng) -> Vec<Rule<Text>> {
    let count = match rng.below(20) {
        0 => 7 + rng.below(14),
        1..=5 => 1,
        _ => 2 + rng.below(4),
    };
    let mut names: Vec<Text> = Vec::new();
    while names.len() < count {
        let name = if rng.percent(85) { rng.pick(&NAMES).as_bytes().to_vec() } else { format!("n{}", rng.below(100)).into_bytes() };
        if !names.contains(&name) {
            names.push(name);
        }
    }
    let most = if rng.percent(5) { 150 } else { 36 };
    let one_type = if rng.percent(50) { Some(rng.pick(&[ATOMIC, ATOMIC, COMPOUND, NORMAL])) } else { None };
    let (shapes, stack, large_count) = (rng.pick(&[0, 20, 45, 70]), rng.percent(50), rng.percent(4));
    let mut rules = Vec::new();
    for current in 0..count {
        let mut gen = Gen { rng: &mut *rng, names: names.clone(), current, shapes, stack, large_count };
        let ty = match one_type {
            Some(ty) if gen.rng.percent(80) => ty,
            _ => gen.rng.pick(&[NORMAL, SILENT, ATOMIC, ATOMIC, ATOMIC, COMPOUND, NON_ATOMIC]),
        };
        let tree = if current > 0 && gen.rng.percent(30) {
            gen.list_expr()
        } else {
            let budget = 1 + gen.rng.below(most);
            gen.tree(budget)
        };
        rules.push(Rule { name: names[current].clone(), ty, tree });
    }
    rules
}

impl<'a> Gen<'a> {
    fn word(&mut self) -> Text {
        if self.rng.percent(5) {
            let n = self.rng.below(12);
            return (0..n).map(|_| self.rng.pick(b"ab")).collect();
        }
        self.rng.pick(&WORDS).as_bytes().to_vec()
    }

    fn ident(&mut self) -> T {
        if self.rng.percent(70) {
            return Tree::Lit(IDENT, self.rng.pick(&self.names.clone()));
        }
        id(self.rng.pick(&OTHERS))
    }

    /// A rule's name, mostly of a later rule, so that most readings end.
    fn list_ident(&mut self) -> T {
        let later = self.current + 1;
        if later < self.names.len() && self.rng.percent(90) {
            let place = later + self.rng.below(self.names.len() - later);
            return Tree::Lit(IDENT, self.names[place].clone());
        }
        if self.rng.percent(70) {
            return Tree::Lit(STR, self.word());
        }
        self.ident()
    }

    /// What a skip list reads, and at times nearly that.
    fn list_expr(&mut self) -> T {
        let n = 1 + self.rng.below(4);
        let mut items: Vec<T> = (0..n)
            .map(|_| match self.rng.below(40) {
                0 => Tree::Lit(INSENS, self.word()),
                1 => self.leaf(),
                2 => seq(s("a"), s("b")),
                3 => choice(s("a"), s("b")),
                4..=18 => self.list_ident(),
                _ => Tree::Lit(STR, self.word()),
            })
            .collect();
        if self.rng.percent(10) {
            return self.chain(CHOICE, items);
        }
        let mut tree = items.pop().unwrap();
        while let Some(item) = items.pop() {
            tree = choice(item, tree);
        }
        tree
    }

    fn leaf(&mut self) -> T {
        match self.rng.below(if self.stack { 16 } else { 14 }) {
            0..=3 => Tree::Lit(STR, self.word()),
            4 | 5 => Tree::Lit(INSENS, self.word()),
            6 => Tree::Fixed(RANGE, self.rng.below(128) as u32, self.rng.below(128) as u32),
            7 => Tree::Fixed(RANGE, 97, 97 + self.rng.below(3) as u32),
            8..=11 => self.ident(),
            12 => {
                let n = self.rng.below(4);
                Tree::Skip((0..n).map(|_| self.word()).collect())
            }
            13 => {
                let numbers = [0, 1, 2, u32::MAX, u32::MAX - 1, 0x8000_0000, 0x7FFF_FFFF];
                let (x, y) = (self.rng.pick(&numbers), self.rng.pick(&numbers));
                if self.rng.percent(50) {
                    Tree::Fixed(PEEK, x, 0)
                } else {
                    Tree::Fixed(PEEK_END, x, y)
                }
            }
            14 => id(self.rng.pick(&["POP", "DROP"])),
            _ => one(PUSH, Tree::Lit(STR, self.word())),
        }
    }

    fn number(&mut self) -> u32 {
        if self.large_count && self.rng.percent(25) {
            let near = 1 + self.rng.below(2100) as u32;
            return self.rng.pick(&[near, near, 10, 100, 1000, 65536, 0x7FFF_FFFF, 0x8000_0000, u32::MAX, u32::MAX - 1]);
        }
        1 + self.rng.pick(&[0u32, 0, 0, 1, 1, 2, 3])
    }

    fn counted(&mut self, e: T) -> T {
        let n = self.number();
        let m = self.number();
        match self.rng.below(5) {
            0 => one(REP_ONCE, e),
            1 => count(REP_EXACT, n, 0, e),
            2 => {
                let n = if self.rng.percent(30) { 0 } else { n };
                count(REP_MIN, n, 0, e)
            }
            3 => count(REP_MAX, n, 0, e),
            _ => {
                let m = if self.rng.percent(30) { 0 } else { m };
                count(REP_MIN_MAX, m, n, e)
            }
        }
    }

    pub fn tree(&mut self, budget: usize) -> T {
        if budget <= 1 {
            return self.leaf();
        }
        if budget >= 4 && self.rng.percent(self.shapes) {
            return self.shape(budget);
        }
        match self.rng.below(if self.stack { 20 } else { 19 }) {
            0 => self.leaf(),
            1 => {
                let e = self.tree(budget - 1);
                one(POS_PRED, e)
            }
            2 => {
                let e = self.tree(budget - 1);
                one(NEG_PRED, e)
            }
            3..=5 => {
                let e = self.tree(budget - 1);
                let kind = self.rng.pick(&[OPT, REP]);
                one(kind, e)
            }
            6 | 7 => {
                let e = self.tree(budget / 3);
                self.counted(e)
            }
            8..=13 => self.halves(SEQ, budget),
            14..=18 => self.halves(CHOICE, budget),
            _ => {
                let e = self.tree(budget - 1);
                one(PUSH, e)
            }
        }
    }

    fn halves(&mut self, kind: u32, budget: usize) -> T {
        let left = 1 + self.rng.below(budget);
        let l = self.tree(left.min(budget - 1));
        let r = self.tree(budget - left.min(budget - 1));
        two(kind, l, r)
    }

    /// Elements nested at random: to the left, to the right or mixed.
    fn chain(&mut self, kind: u32, mut items: Vec<T>) -> T {
        let way = self.rng.below(3);
        while items.len() > 1 {
            let at = match way {
                0 => 0,
                1 => items.len() - 2,
                _ => self.rng.below(items.len() - 1),
            };
            let r = items.remove(at + 1);
            let l = items.remove(at);
            items.insert(at, two(kind, l, r));
        }
        items.pop().unwrap()
    }

    fn shape(&mut self, budget: usize) -> T {
        let part = budget / 4;
        let small = 1 + self.rng.below(part.max(1));
        let a = self.tree(small);
        match self.rng.below(10) {
            0 => {
                let n = 2 + self.rng.below(5);
                let items = (0..n).map(|_| self.tree(budget / n)).collect();
                let kind = self.rng.pick(&[SEQ, CHOICE]);
                self.chain(kind, items)
            }
            1 | 2 => self.loop_shape(),
            3 => {
                let e = self.tree(budget / 4);
                let e = self.counted(e);
                if self.rng.percent(40) {
                    return self.counted(e);
                }
                e
            }
            4 => {
                let n = 2 + self.rng.below(4);
                let kind = self.rng.pick(&[STR, INSENS]);
                let items = (0..n)
                    .map(|_| if self.rng.percent(85) { Tree::Lit(kind, self.word()) } else { self.leaf() })
                    .collect();
                self.chain(SEQ, items)
            }
            5 | 6 => self.factor_shape(a, part),
            7 => {
                let b = self.tree(part);
                let a2 = self.nearly(&a);
                let repeated = one(REP, seq(a, b));
                if self.rng.percent(20) {
                    let c = self.tree(part);
                    return seq(repeated, seq(a2, c));
                }
                seq(repeated, a2)
            }
            _ => {
                let b = self.tree(part);
                let under = self.rng.pick(&[PUSH, PUSH, OPT, POS_PRED, NEG_PRED]);
                let pushed = one(under, a);
                let inner = if self.rng.percent(50) { choice(pushed, b) } else { seq(b, pushed) };
                let kind = self.rng.pick(&[OPT, REP]);
                one(kind, inner)
            }
        }
    }

    fn loop_shape(&mut self) -> T {
        let e = self.list_expr();
        match self.rng.below(30) {
            0 => one(REP_ONCE, seq(one(NEG_PRED, e), id("ANY"))),
            1 => one(REP, seq(one(POS_PRED, e), id("ANY"))),
            2 => one(REP, choice(one(NEG_PRED, e), id("ANY"))),
            3 => one(REP, seq(id("ANY"), one(NEG_PRED, e))),
            4 => one(REP, seq(one(NEG_PRED, e), id("ANYa"))),
            5 => one(REP, seq(one(NEG_PRED, e), s("ANY"))),
            6 => one(REP, seq(seq(one(NEG_PRED, e), id("ANY")), s("a"))),
            7 => count(REP_MIN, 0, 0, seq(one(NEG_PRED, e), id("ANY"))),
            8 => one(REP, one(NEG_PRED, e)),
            _ => skip_loop(e),
        }
    }

    fn factor_shape(&mut self, a: T, part: usize) -> T {
        let a2 = self.nearly(&a);
        let b = self.tree(part);
        let c = self.tree(part);
        let both = match self.rng.below(5) {
            0 => choice(seq(a.clone(), b), seq(a2, c)),
            1 => choice(seq(a.clone(), b), a2),
            2 => choice(a.clone(), seq(a2, b)),
            3 => {
                // a {1} keeps a Choice on the left past rotation: l | (l ~ c), where l would give way itself
                let l = choice(a.clone(), seq(a2, b));
                let head = if self.rng.percent(50) { l.clone() } else { count(REP_EXACT, 1, 0, l.clone()) };
                choice(count(REP_EXACT, 1, 0, l), seq(head, c))
            }
            _ => choice(count(REP_EXACT, 2, 0, a.clone()), a2),
        };
        if self.rng.percent(30) {
            let a3 = self.nearly(&a);
            return choice(both, a3);
        }
        both
    }

    /// A copy, or a copy with one small change.
    fn nearly(&mut self, tree: &T) -> T {
        if self.rng.percent(70) {
            return tree.clone();
        }
        nearly(tree, self.rng)
    }
}

/// A copy with one small change.
pub fn nearly(tree: &T, rng: &mut Rng) -> T {
    let mut left = rng.below(tree.rows());
    changed(tree, &mut left, rng)
}

fn changed(tree: &T, left: &mut usize, rng: &mut Rng) -> T {
    let here = *left == 0;
    *left = left.wrapping_sub(1);
    match tree {
        Tree::Lit(kind, l) => {
            if !here {
                return tree.clone();
            }
            match rng.below(3) {
                0 => Tree::Lit(if *kind == STR { INSENS } else { STR }, l.clone()),
                1 => Tree::Lit(*kind, [&l[..], b"a"].concat()),
                _ => Tree::Lit(*kind, l.iter().map(|b| if *b == b'a' { b'A' } else { b'a' }).collect()),
            }
        }
        Tree::Fixed(kind, x, y) => {
            if here {
                let more = if *kind == RANGE { (*x + 1) % 128 } else { x.wrapping_add(1) };
                return Tree::Fixed(*kind, more, *y);
            }
            tree.clone()
        }
        Tree::Skip(list) => {
            let mut list = list.clone();
            if here {
                list.push(b"a".to_vec());
            }
            Tree::Skip(list)
        }
        Tree::One(kind, x, y, e) => {
            let e = changed(e, left, rng);
            if here {
                return one(if *kind == OPT { REP } else { OPT }, e);
            }
            count(*kind, *x, *y, e)
        }
        Tree::Two(kind, l, r) => {
            let l = changed(l, left, rng);
            let r = changed(r, left, rng);
            if here {
                return two(*kind, r, l);
            }
            two(*kind, l, r)
        }
    }
}

/// Puts a table's literals into text: packed, with gaps, sharing, overlapping, or all in one prepared text.
pub fn lay(rules: &[Rule<Text>], rng: &mut Rng) -> Case {
    let way = rng.below(5);
    if way == 0 {
        return Case::packed(rules);
    }
    let mut text: Text = Vec::new();
    if way == 4 {
        for _ in 0..1 + rng.below(60) {
            text.extend(rng.pick(&WORDS).as_bytes());
        }
    }
    let (rule_words, row_words) = words(rules, &mut |l: &Text| {
        let offset = place(l, way, &mut text, rng);
        (offset as u32, l.len() as u32)
    });
    if rng.percent(30) {
        text.extend([b'a', 255, 128]);
    }
    Case { rules: rule_words, rows: row_words, text, short: 0 }
}

fn place(l: &[u8], way: usize, text: &mut Text, rng: &mut Rng) -> usize {
    if l.is_empty() {
        return rng.below(text.len() + 1);
    }
    if way == 1 {
        for _ in 0..rng.below(3) {
            let junk = rng.pick(&[b'a', b'z', 0, 128, 200, 255]);
            text.push(junk);
        }
        let offset = text.len();
        text.extend_from_slice(l);
        return offset;
    }
    if text.len() < 4000 {
        let found: Vec<usize> = (0..(text.len() + 1).saturating_sub(l.len())).filter(|i| text[*i..*i + l.len()] == *l).collect();
        if !found.is_empty() {
            return rng.pick(&found);
        }
    }
    let longest = l.len().min(text.len());
    let shared = if way == 2 { 0 } else { (0..=longest).rev().find(|n| text.ends_with(&l[..*n])).unwrap_or(0) };
    let offset = text.len() - shared;
    text.extend_from_slice(&l[shared..]);
    offset
}
