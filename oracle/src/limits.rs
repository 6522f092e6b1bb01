// Large tables: sizes just below, at and just above each limit, deep nesting, doubling lists, nested counts.

use crate::gen::*;
use crate::table::*;

/// A table near some limit, as trees; laid out by the caller, or here where the spans are the point.
pub fn large(rng: &mut Rng) -> Case {
    let near = rng.below(4); // 0: one below, 1: at, 2: one above the limit, 3: two above
    let ty = rng.pick(&[NORMAL, SILENT, ATOMIC, COMPOUND, NON_ATOMIC]);
    let rules = match rng.below(15) {
        0 => many_rules(rng, 255 + near),
        1 => vec![rule("r", ty, chain_of(rng, 4095 + near))],
        2 => spread(rng, 4095 + near),
        3 => vec![rule("r", ty, nested(rng, 4095 + near))],
        4 => unrolled(rng, ty, 4095 + near),
        5 => nested_counts(rng, ty),
        6 => return long_text(rng, ty, FULL_TEXT - 1 + near),
        7 => return shared_text(rng, ty, FULL_TEXT - 1 + near),
        8 => unrolled_text(rng, ty, FULL_TEXT - 1 + near),
        9 => doubling(rng),
        10 => skip_rows(rng, 4095 + near),
        11 => skip_text(rng, FULL_TEXT - 1 + near),
        12 => restored(rng, ty, 4095 + near),
        13 => reference_web(rng),
        _ => long_names(rng),
    };
    Case::packed(&rules)
}

fn many_rules(rng: &mut Rng, n: usize) -> Vec<Rule<Text>> {
    (0..n)
        .map(|i| {
            let to = rng.below(n);
            let tree = match rng.below(4) {
                0 => s("a"),
                1 => id(&format!("n{to}")),
                2 => one(OPT, id(&format!("n{to}"))),
                _ => choice(s("a"), id(&format!("n{to}"))),
            };
            rule(&format!("n{i}"), rng.pick(&[ATOMIC, NORMAL]), tree)
        })
        .collect()
}

fn small_leaf(rng: &mut Rng) -> T {
    rng.pick(&[s("a"), s("b"), s(""), lit(INSENS, "a"), id("x"), id("POP"), Tree::Fixed(RANGE, 97, 98), Tree::Skip(Vec::new())])
}

/// A chain of Seq or Choice of exactly that many rows, nested left, right or balanced.
fn chain_of(rng: &mut Rng, rows: usize) -> T {
    let kind = rng.pick(&[SEQ, CHOICE]);
    let way = rng.below(3);
    let mut items: Vec<T> = (0..(rows + 1) / 2).map(|_| small_leaf(rng)).collect();
    if rows % 2 == 0 {
        items[0] = one(OPT, items[0].clone());
    }
    match way {
        0 => items.into_iter().reduce(|l, r| two(kind, l, r)).unwrap(),
        1 => items.into_iter().rev().reduce(|r, l| two(kind, l, r)).unwrap(),
        _ => {
            while items.len() > 1 {
                let mut pairs = Vec::new();
                let mut rest = items.into_iter();
                while let Some(l) = rest.next() {
                    pairs.push(match rest.next() {
                        Some(r) => two(kind, l, r),
                        None => l,
                    });
                }
                items = pairs;
            }
            items.pop().unwrap()
        }
    }
}

fn spread(rng: &mut Rng, rows: usize) -> Vec<Rule<Text>> {
    let n = 2 + rng.below(200);
    let each = rows / n;
    (0..n)
        .map(|i| {
            let size = if i == 0 { rows - each * (n - 1) } else { each };
            rule(&format!("n{i}"), rng.pick(&[ATOMIC, NORMAL, COMPOUND]), chain_of(rng, size))
        })
        .collect()
}

fn nested(rng: &mut Rng, rows: usize) -> T {
    let kinds: &[u32] = rng.pick(&[&[OPT][..], &[PUSH], &[REP, OPT], &[NEG_PRED, POS_PRED], &[REP, NEG_PRED, OPT, PUSH, POS_PRED]]);
    let mut tree = small_leaf(rng);
    for _ in 1..rows {
        tree = one(rng.pick(kinds), tree);
    }
    tree
}

/// Counts that unroll to about `rows` rows, with an exact fit made by further small rules.
fn unrolled(rng: &mut Rng, ty: u32, rows: usize) -> Vec<Rule<Text>> {
    let e = rng.pick(&[s("a"), s(""), lit(INSENS, "a"), id("x"), seq(s("a"), s("b")), one(PUSH, s("a")), choice(s("a"), id("r"))]);
    let (kind, per) = rng.pick(&[(REP_EXACT, 0), (REP_MIN, 0), (REP_MAX, 1), (REP_MIN_MAX, 1), (REP_MIN_MAX, 2)]);
    let item = e.rows() + 1 + if kind == REP_MAX || per == 1 { 1 } else { 0 };
    let n = (rows - if kind == REP_MIN { e.rows() + 1 } else { 0 }) / item;
    let (tree, size) = match kind {
        REP_EXACT => (count(kind, n as u32, 0, e), n * item - 1),
        REP_MIN => {
            let size = n * item + e.rows() + 1;
            (count(kind, n as u32, 0, e), size)
        }
        REP_MAX => (count(kind, n as u32, 0, e), n * item - 1),
        _ => (count(kind, if per == 1 { 0 } else { n as u32 }, n as u32, e), n * item - 1),
    };
    let mut rules = vec![rule("r", ty, tree)];
    for i in size..rows {
        rules.push(rule(&format!("n{i}"), NORMAL, s("a")));
    }
    rules
}

fn nested_counts(rng: &mut Rng, ty: u32) -> Vec<Rule<Text>> {
    let numbers = [1, 2, 3, 16, 63, 64, 65, 255, 256, 257, 4095, 4096, 65535, 65536, 0x5555_5556, 0x8000_0000, 0x8000_0001, u32::MAX, u32::MAX - 1];
    let mut tree = rng.pick(&[s("a"), s(""), Tree::Skip(Vec::new()), id("x")]);
    let exact = |n: u32, e: T| count(REP_EXACT, n, 0, e);
    match rng.below(12) {
        // rows that come to 1 if they are counted in 32 bits, or in 64
        0 => return vec![rule("r", ty, exact(2, one(OPT, exact(1 << 30, s("")))))],
        1 => return vec![rule("r", ty, exact(2, one(OPT, exact(1 << 31, exact(1 << 31, s(""))))))],
        2 => return vec![rule("r", ty, exact(1 << 31, exact(1 << 31, exact(2, s("")))))],
        3 => return vec![rule("r", ty, exact(4, one(OPT, exact(1 << 31, exact(1 << 30, Tree::Fixed(RANGE, 1, 2))))))],
        _ => {}
    }
    for _ in 0..1 + rng.below(4) {
        let (n, m) = (rng.pick(&numbers), rng.pick(&numbers));
        tree = match rng.below(5) {
            0 => count(REP_MIN, n, 0, tree),
            1 => count(REP_MAX, n, 0, tree),
            2 => count(REP_MIN_MAX, m, n, tree),
            3 => one(REP_ONCE, tree),
            _ => count(REP_EXACT, n, 0, tree),
        };
    }
    if rng.percent(10) {
        for _ in 0..rng.below(1000) {
            tree = one(REP_ONCE, tree);
        }
    }
    vec![rule("r", ty, tree)]
}

/// One long literal: the text's own limit.
fn long_text(rng: &mut Rng, ty: u32, bytes: usize) -> Case {
    let kind = rng.pick(&[STR, INSENS, IDENT]);
    let long: Text = (0..bytes - 1).map(|i| b'a' + (i % 3) as u8).collect();
    Case::packed(&[Rule { name: b"r".to_vec(), ty, tree: Tree::Lit(kind, long) }])
}

/// Spans that share a short text, with a packed text near the limit.
fn shared_text(rng: &mut Rng, ty: u32, bytes: usize) -> Case {
    let n = 2 + rng.below(300);
    let text: Text = vec![b'a'; 1 + bytes];
    let rest = bytes - 1;
    let each = rest / n;
    let mut items: Vec<Tree<Span>> = Vec::new();
    for i in 0..n {
        let length = if i == 0 { rest - each * (n - 1) } else { each };
        let offset = rng.below(3).min(text.len() - length);
        items.push(Tree::Lit(rng.pick(&[STR, STR, INSENS, IDENT]), (offset as u32, length as u32)));
    }
    let longest = ((rest - each * (n - 1)).max(each) + 3).min(FULL_TEXT - 3);
    let mut text = text[..longest].to_vec();
    if rng.percent(30) {
        // a loop whose step takes its ANY away again: the input alone is too large
        let any = Tree::Lit(IDENT, (longest as u32, 3));
        let not = Tree::One(NEG_PRED, 0, 0, Box::new(Tree::Lit(STR, (0, 0))));
        items.push(Tree::One(REP, 0, 0, Box::new(Tree::Two(SEQ, Box::new(not), Box::new(any)))));
        text.extend(b"ANY");
    }
    let kind = rng.pick(&[SEQ, CHOICE]);
    let tree = items.into_iter().rev().reduce(|r, l| Tree::Two(kind, Box::new(l), Box::new(r))).unwrap();
    let (rules, rows) = words(&[Rule { name: (0, 1), ty, tree }], &mut |span| *span);
    Case { rules, rows, text, short: 0 }
}

fn unrolled_text(rng: &mut Rng, ty: u32, bytes: usize) -> Vec<Rule<Text>> {
    let n = 1 + rng.below(1000);
    let each = (bytes - 1) / n;
    let rest = bytes - 1 - n * each;
    let word = |length: usize| Tree::Lit(STR, vec![b'a'; length]);
    let kind = rng.pick(&[REP_EXACT, REP_MAX]);
    vec![rule("r", ty, seq(count(kind, n as u32, 0, word(each)), word(rest)))]
}

/// Lists that double, in rules of their own; some end in "none" after the doubling, some meet a rule again.
fn doubling(rng: &mut Rng) -> Vec<Rule<Text>> {
    let n = rng.pick(&[5, 10, 11, 12, 13, 30, 64, 200, 250]);
    let end = rng.below(8);
    let e = rng.pick(&[id("n0"), choice(id("n0"), s("b")), choice(s("b"), id("n0")), choice(id("n0"), Tree::Fixed(RANGE, 97, 98))]);
    let mut rules = vec![rule("r", ATOMIC, skip_loop(e))];
    for i in 0..n {
        let next = format!("n{}", i + 1);
        let tree = match end {
            0 if i == 0 => choice(id(&next), choice(id(&next), Tree::Fixed(RANGE, 97, 98))),
            1 if i == 0 => choice(id(&next), choice(id(&next), id("n0"))),
            2 if i == n / 2 => choice(id(&next), choice(id(&next), id("unknown"))),
            _ => choice(id(&next), id(&next)),
        };
        rules.push(rule(&format!("n{i}"), rng.pick(&[NORMAL, ATOMIC]), tree));
    }
    let last = match end {
        3 => Tree::Fixed(RANGE, 97, 98),
        4 => id("n0"),
        5 => s(""),
        6 => choice(s("a"), s("bb")),
        _ => s("a"),
    };
    rules.push(rule(&format!("n{n}"), SILENT, last));
    rules
}

/// Loops over one list, with that many rows after the step.
fn skip_rows(rng: &mut Rng, rows: usize) -> Vec<Rule<Text>> {
    let strings = 1 + rng.below(60);
    let list: Vec<T> = (0..strings).map(|_| s(rng.pick(&["a", "b", ""]))).collect();
    let list = list.into_iter().rev().reduce(|r, l| choice(l, r)).unwrap();
    let left = rows - list.rows();
    let n = (left + 1) / (strings + 2); // each loop strings + 1 rows, and a Seq between two
    let loops = (0..n.max(1)).map(|_| skip_loop(id("x"))).reduce(|r, l| seq(l, r)).unwrap();
    let size = n.max(1) * (strings + 2) - 1;
    let mut rules = vec![rule("r", ATOMIC, loops), rule("x", NORMAL, list)];
    for i in size..left.max(size) {
        if rules.len() < 256 {
            rules.push(rule(&format!("n{i}"), NORMAL, s("a")));
        }
    }
    rules
}

/// Loops over a list of long strings, with that much packed text after the step.
fn skip_text(rng: &mut Rng, bytes: usize) -> Vec<Rule<Text>> {
    let n = 1 + rng.below(40); // loops; the list stands once more in its own rule
    let each = (bytes - 2) / (n + 1);
    let rest = bytes - 2 - (n + 1) * each;
    let long = Tree::Lit(STR, vec![b'a'; each]);
    let loops = (0..n).map(|_| skip_loop(id("x"))).reduce(|r, l| seq(l, r)).unwrap();
    vec![rule("r", ATOMIC, seq(loops, Tree::Lit(STR, vec![b'b'; rest]))), rule("x", SILENT, long)]
}

/// Wrapped rows of the last step up to that many rows.
fn restored(rng: &mut Rng, ty: u32, rows: usize) -> Vec<Rule<Text>> {
    let item = rng.pick(&[one(OPT, one(PUSH, s("a"))), one(REP, id("POP")), one(OPT, id("x")), choice(id("DROP"), id("x"))]);
    let after = item.rows() + if let Tree::Two(..) = item { 2 } else { 1 };
    let n = (rows - 2 + 1) / (after + 1);
    let size = n * (after + 1) - 1;
    let tree = (0..n).map(|_| item.clone()).reduce(|r, l| seq(l, r)).unwrap();
    let mut rules = vec![rule("r", ty, tree), rule("x", NORMAL, one(PUSH, s("a")))];
    for i in size + 2..rows {
        rules.push(rule(&format!("n{i}"), NORMAL, s("a")));
    }
    rules
}

/// Many rules that refer to each other under Opt, Rep and Choice, a stack change somewhere.
fn reference_web(rng: &mut Rng) -> Vec<Rule<Text>> {
    let n = 2 + rng.below(60);
    let ring = rng.percent(30);
    (0..n)
        .map(|i| {
            let mut name = || {
                let to = if ring || i + 1 == n { rng.below(n) } else { i + 1 + rng.below((n - i - 1).min(3)) };
                id(&format!("n{to}"))
            };
            let (a, b, c) = (name(), name(), name());
            let tree = match rng.below(8) {
                0 => one(OPT, seq(a, b)),
                1 => choice(a, choice(b, c)),
                2 => one(REP, one(OPT, a)),
                3 => seq(a, s("a")),
                4 => one(NEG_PRED, choice(a, one(PUSH, s("a")))),
                5 => choice(s("a"), s("b")),
                6 => one(REP_ONCE, choice(a, b)),
                _ => seq(one(OPT, a), one(REP, b)),
            };
            let tree = if i + 1 == n && rng.percent(70) { seq(id("POP"), tree) } else { tree };
            rule(&format!("n{i}"), rng.pick(&[NORMAL, ATOMIC, COMPOUND]), tree)
        })
        .collect()
}

/// Long names that differ in their last byte.
fn long_names(rng: &mut Rng) -> Vec<Rule<Text>> {
    let n = 2 + rng.below(40);
    let length = 500;
    let name = |i: usize| {
        let mut name = vec![b'n'; length];
        name[length - 1] = b'0' + i as u8;
        name
    };
    (0..n).map(|i| Rule { name: name(i), ty: ATOMIC, tree: one(OPT, choice(Tree::Lit(IDENT, name(rng.below(n + 1))), s("a"))) }).collect()
}
