// The judge: `optimize` written from document 01's words alone, for inputs where the original has no answer, and beside it everywhere else.
// It runs in a thread with a large stack; sizes are computed, as whole numbers that stop at the top, before anything large is built.

use crate::table::*;
use std::collections::{HashMap, HashSet};

pub fn judge(case: &Case) -> Answer {
    judge_and_note(case, &mut [false; 7])
}

/// The same, noting which steps changed something.
pub fn judge_and_note(case: &Case, fired: &mut [bool; 7]) -> Answer {
    match optimize(case, fired) {
        Ok(answer) => answer,
        Err(number) => Answer::refused(number),
    }
}

fn optimize(case: &Case, fired: &mut [bool; 7]) -> Result<Answer, u32> {
    if case.short >= 1 && case.short <= 10 {
        return Err(1);
    }
    let given = accepted(case)?;
    let rotated: Vec<Rule<Span>> = each(&given, |rule| rotate(&rule.tree));
    let mut readings = Readings::new(&given, &case.text);
    for rule in rotated.iter().filter(|rule| rule.ty == ATOMIC) {
        loops(&rule.tree, &case.text, &mut |e| readings.read(e).map(|_| ()))?; // refusal 7
    }
    fits(&given)?;
    fired[0] = rotated != given;
    let mut report = vec![total_rows(&given), total_rows(&rotated)];

    let mut size = (0, 0);
    for rule in &rotated {
        size = sum(size, (0, rule.name.1 as u128));
        size = sum(size, skipped_size(&rule.tree, rule.ty == ATOMIC, &mut readings)?);
    }
    fits_full(size)?;
    let mut skipped = Vec::new();
    for rule in &rotated {
        let tree = if rule.ty == ATOMIC { skip(&rule.tree, &mut readings)? } else { rule.tree.clone() };
        skipped.push(Rule { name: rule.name, ty: rule.ty, tree });
    }
    fired[1] = skipped != rotated;
    let mut table = resolve(&skipped, &case.text);
    after(&table, &mut report)?;

    let size = table.iter().fold((0, 0), |size, rule| sum(sum(size, (0, rule.name.len() as u128)), unrolled_size(&rule.tree)));
    fits_full(size)?;
    for step in 3..=7 {
        let next = match step {
            3 => each(&table, |rule| unroll(&rule.tree)),
            4 => each(&table, |rule| if rule.ty == ATOMIC { concatenate(&rule.tree) } else { rule.tree.clone() }),
            5 => each(&table, |rule| factor(&rule.tree, rule.ty)),
            6 => each(&table, |rule| list(&rule.tree)),
            _ => {
                let stack = StackChanges::new(&table);
                each(&table, |rule| restore(&rule.tree, &stack))
            }
        };
        fired[step - 1] = next != table;
        table = next;
        after(&table, &mut report)?;
    }

    let (rules, rows, text) = pack(&table);
    let mut pairs = [0; 14];
    for step in 0..7 {
        pairs[2 * step] = report[step];
        pairs[2 * step + 1] = report[step + 1];
    }
    Ok(Answer { number: 0, rules, rows, text, report: pairs, rest_unchanged: 1 })
}

fn each<L: Clone>(rules: &[Rule<L>], step: impl Fn(&Rule<L>) -> Tree<L>) -> Vec<Rule<L>> {
    rules.iter().map(|rule| Rule { name: rule.name.clone(), ty: rule.ty, tree: step(rule) }).collect()
}

// Refusals 2 to 6.

pub fn accepted(case: &Case) -> Result<Vec<Rule<Span>>, u32> {
    let (rules, rows, text) = (&case.rules, &case.rows, &case.text);
    if rules.len() % 4 != 0 || rows.len() % 4 != 0 {
        return Err(2);
    }
    if rules.len() > 4 * FULL_RULES || rows.len() > 4 * FULL_ROWS || text.len() > FULL_TEXT {
        return Err(2);
    }
    let table = decode(rules, rows, PUSH).ok_or(3u32)?;
    for rule in &table {
        let mut good = is_ascii_in(text, rule.name);
        rule.tree.literals(&mut |_, span| good = good && is_ascii_in(text, *span));
        if !good || !ranges_ascii(&rule.tree) {
            return Err(4);
        }
    }
    let mut names = HashSet::new();
    for rule in &table {
        let name = span_bytes(text, &rule.name);
        if name == b"ANY" || name == b"DROP" || name == b"POP" || !names.insert(name) {
            return Err(5);
        }
    }
    if table.iter().any(|rule| has_zero_count(&rule.tree)) {
        return Err(6);
    }
    Ok(table)
}

fn is_ascii_in(text: &[u8], (offset, length): Span) -> bool {
    let end = offset as u64 + length as u64;
    end <= text.len() as u64 && text[offset as usize..end as usize].iter().all(|b| *b <= 127)
}

fn ranges_ascii<L>(tree: &Tree<L>) -> bool {
    match tree {
        Tree::Fixed(RANGE, first, last) => *first <= 127 && *last <= 127,
        Tree::Lit(..) | Tree::Fixed(..) | Tree::Skip(_) => true,
        Tree::One(_, _, _, e) => ranges_ascii(e),
        Tree::Two(_, l, r) => ranges_ascii(l) && ranges_ascii(r),
    }
}

fn has_zero_count<L>(tree: &Tree<L>) -> bool {
    match tree {
        Tree::Lit(..) | Tree::Fixed(..) | Tree::Skip(_) => false,
        Tree::One(kind, x, y, e) => {
            let zero = match *kind {
                REP_EXACT | REP_MAX => *x == 0,
                REP_MIN_MAX => *y == 0,
                _ => false,
            };
            zero || has_zero_count(e)
        }
        Tree::Two(_, l, r) => has_zero_count(l) || has_zero_count(r),
    }
}

// Refusal 8.

type Size = (u128, u128); // rows, text bytes

fn sum(a: Size, b: Size) -> Size {
    (a.0.saturating_add(b.0), a.1.saturating_add(b.1))
}

fn times(n: u128, a: Size) -> Size {
    (a.0.saturating_mul(n), a.1.saturating_mul(n))
}

fn fits_full(size: Size) -> Result<(), u32> {
    if size.0 > FULL_ROWS as u128 || size.1 > FULL_TEXT as u128 {
        return Err(8);
    }
    Ok(())
}

fn fits(table: &[Rule<Span>]) -> Result<(), u32> {
    let (rows, bytes) = packed_size(table, |span| span.1 as usize);
    fits_full((rows as u128, bytes as u128))
}

fn total_rows<L>(table: &[Rule<L>]) -> u32 {
    table.iter().map(|rule| rule.tree.rows() as u32).sum()
}

fn after(table: &[Rule<Text>], report: &mut Vec<u32>) -> Result<(), u32> {
    let (rows, bytes) = packed_size(table, |l| l.len());
    report.push(rows as u32);
    fits_full((rows as u128, bytes as u128))
}

// Step 1. A chain of Seq (of Choice) is its elements in order, nested to the right.

pub fn rotate<L: Clone>(tree: &Tree<L>) -> Tree<L> {
    match tree {
        Tree::Two(kind, _, _) => {
            let mut elements = Vec::new();
            chain(*kind, tree, &mut elements);
            nest(*kind, elements.into_iter().map(rotate).collect())
        }
        Tree::One(kind, x, y, e) => Tree::One(*kind, *x, *y, Box::new(rotate(e))),
        leaf => leaf.clone(),
    }
}

fn chain<'a, L>(kind: u32, tree: &'a Tree<L>, elements: &mut Vec<&'a Tree<L>>) {
    match tree {
        Tree::Two(k, l, r) if *k == kind => {
            chain(kind, l, elements);
            chain(kind, r, elements);
        }
        other => elements.push(other),
    }
}

/// One item stands by itself.
fn nest<L>(kind: u32, mut items: Vec<Tree<L>>) -> Tree<L> {
    let mut tree = items.pop().expect("at least one item");
    while let Some(item) = items.pop() {
        tree = Tree::Two(kind, Box::new(item), Box::new(tree));
    }
    tree
}

// Step 2. What a loop's list reads, each rule once.

#[derive(Clone, Copy)]
enum Reading {
    NotYet,
    Open,
    None,
    List(Size), // strings, bytes
}

struct Readings<'a> {
    given: &'a [Rule<Span>],
    text: &'a [u8],
    by_name: HashMap<&'a [u8], usize>,
    done: Vec<Reading>,
}

fn slice(text: &[u8], span: Span) -> &[u8] {
    &text[span.0 as usize..span.0 as usize + span.1 as usize]
}

impl<'a> Readings<'a> {
    fn new(given: &'a [Rule<Span>], text: &'a [u8]) -> Self {
        let by_name = given.iter().enumerate().map(|(i, rule)| (slice(text, rule.name), i)).collect();
        Readings { given, text, by_name, done: vec![Reading::NotYet; given.len()] }
    }

    /// None, or the strings and bytes of e's list; Err(7) if a rule whose reading has not ended is met.
    fn read(&mut self, e: &Tree<Span>) -> Result<Option<Size>, u32> {
        let mut e = e;
        let mut total = (0, 0);
        loop {
            let (first, rest) = match e {
                Tree::Two(CHOICE, l, r) => (&**l, Some(&**r)),
                other => (other, None),
            };
            let part = match first {
                Tree::Lit(STR, span) => Some((1, span.1 as u128)),
                Tree::Lit(IDENT, span) => match self.by_name.get(slice(self.text, *span)) {
                    Some(i) => self.read_rule(*i)?,
                    None => None,
                },
                _ => None,
            };
            match part {
                None => return Ok(None),
                Some(part) => total = sum(total, part),
            }
            match rest {
                None => return Ok(Some(total)),
                Some(rest) => e = rest,
            }
        }
    }

    /// The strings of a list that is known to be there, to fit, and to come to no rule again.
    fn write_list(&self, e: &Tree<Span>, list: &mut Vec<Span>) {
        match e {
            Tree::Lit(STR, span) => list.push(*span),
            Tree::Lit(IDENT, span) => self.write_list(&self.given[self.by_name[slice(self.text, *span)]].tree, list),
            Tree::Two(_, l, r) => {
                self.write_list(l, list);
                self.write_list(r, list);
            }
            _ => unreachable!("not a list"),
        }
    }

    fn read_rule(&mut self, i: usize) -> Result<Option<Size>, u32> {
        match self.done[i] {
            Reading::Open => Err(7),
            Reading::None => Ok(None),
            Reading::List(size) => Ok(Some(size)),
            Reading::NotYet => {
                self.done[i] = Reading::Open;
                let given = self.given;
                let result = self.read(&given[i].tree)?;
                self.done[i] = match result {
                    None => Reading::None,
                    Some(size) => Reading::List(size),
                };
                Ok(result)
            }
        }
    }
}

/// The e of (!e ~ ANY)*.
fn loop_of<'a, L>(tree: &'a Tree<L>, is_any: impl Fn(&L) -> bool) -> Option<&'a Tree<L>> {
    if let Tree::One(REP, _, _, body) = tree {
        if let Tree::Two(SEQ, l, r) = &**body {
            if let (Tree::One(NEG_PRED, _, _, e), Tree::Lit(IDENT, name)) = (&**l, &**r) {
                if is_any(name) {
                    return Some(e);
                }
            }
        }
    }
    None
}

/// Every loop's e in a rotated tree.
fn loops(tree: &Tree<Span>, text: &[u8], found: &mut dyn FnMut(&Tree<Span>) -> Result<(), u32>) -> Result<(), u32> {
    if let Some(e) = loop_of(tree, |name| slice(text, *name) == b"ANY") {
        found(e)?;
    }
    match tree {
        Tree::One(_, _, _, e) => loops(e, text, found),
        Tree::Two(_, l, r) => {
            loops(l, text, found)?;
            loops(r, text, found)
        }
        _ => Ok(()),
    }
}

fn skipped_size(tree: &Tree<Span>, atomic: bool, readings: &mut Readings) -> Result<Size, u32> {
    let text = readings.text;
    if atomic {
        if let Some(e) = loop_of(tree, |name| slice(text, *name) == b"ANY") {
            if let Some(list) = readings.read(e)? {
                return Ok(sum((1, 0), list));
            }
        }
    }
    match tree {
        Tree::Lit(_, span) => Ok((1, span.1 as u128)),
        Tree::Fixed(..) => Ok((1, 0)),
        Tree::Skip(list) => Ok(list.iter().fold((1, 0), |total, span| sum(total, (1, span.1 as u128)))),
        Tree::One(_, _, _, e) => Ok(sum((1, 0), skipped_size(e, atomic, readings)?)),
        Tree::Two(_, l, r) => {
            let left = skipped_size(l, atomic, readings)?;
            Ok(sum((1, 0), sum(left, skipped_size(r, atomic, readings)?)))
        }
    }
}

fn skip(tree: &Tree<Span>, readings: &mut Readings) -> Result<Tree<Span>, u32> {
    let text = readings.text;
    if let Some(e) = loop_of(tree, |name| slice(text, *name) == b"ANY") {
        if readings.read(e)?.is_some() {
            let mut list = Vec::new();
            readings.write_list(e, &mut list);
            return Ok(Tree::Skip(list));
        }
    }
    Ok(match tree {
        Tree::One(kind, x, y, e) => Tree::One(*kind, *x, *y, Box::new(skip(e, readings)?)),
        Tree::Two(kind, l, r) => {
            let left = Box::new(skip(l, readings)?);
            Tree::Two(*kind, left, Box::new(skip(r, readings)?))
        }
        leaf => leaf.clone(),
    })
}

// Step 3.

fn unrolled_size(tree: &Tree<Text>) -> Size {
    let (kind, x, y, e) = match tree {
        Tree::Lit(_, l) => return (1, l.len() as u128),
        Tree::Fixed(..) => return (1, 0),
        Tree::Skip(list) => return list.iter().fold((1, 0), |total, l| sum(total, (1, l.len() as u128))),
        Tree::Two(_, l, r) => return sum((1, 0), sum(unrolled_size(l), unrolled_size(r))),
        Tree::One(kind, x, y, e) => (*kind, *x as u128, *y as u128, unrolled_size(e)),
    };
    let wrapped = sum((1, 0), e);
    // (plain items, wrapped items): e, and e? or e*
    let (plain, others) = match kind {
        REP_ONCE => (1, 1),
        REP_EXACT => (x, 0),
        REP_MIN => (x, 1),
        REP_MAX => (0, x),
        REP_MIN_MAX => (x.min(y), y - x.min(y)),
        _ => return wrapped,
    };
    let items = sum(times(plain, e), times(others, wrapped));
    sum(items, (plain + others - 1, 0))
}

fn unroll(tree: &Tree<Text>) -> Tree<Text> {
    let (kind, x, y, e) = match tree {
        Tree::Lit(..) | Tree::Fixed(..) | Tree::Skip(_) => return tree.clone(),
        Tree::Two(kind, l, r) => return Tree::Two(*kind, Box::new(unroll(l)), Box::new(unroll(r))),
        Tree::One(kind, x, y, e) => (*kind, *x, *y, unroll(e)),
    };
    let under = |kind: u32| Tree::One(kind, 0, 0, Box::new(e.clone()));
    let copies = |n: u32| -> Vec<Tree<Text>> { (0..n).map(|_| e.clone()).collect() };
    let items = match kind {
        REP_ONCE => vec![e.clone(), under(REP)],
        REP_EXACT => copies(x),
        REP_MIN => {
            let mut items = copies(x);
            items.push(under(REP));
            items
        }
        REP_MAX => (0..x).map(|_| under(OPT)).collect(),
        REP_MIN_MAX => (0..y).map(|i| if i < x { e.clone() } else { under(OPT) }).collect(),
        _ => return Tree::One(kind, x, y, Box::new(e)),
    };
    nest(SEQ, items)
}

// Step 4, for Atomic rules.

fn concatenate(tree: &Tree<Text>) -> Tree<Text> {
    match tree {
        Tree::One(kind, x, y, e) => Tree::One(*kind, *x, *y, Box::new(concatenate(e))),
        Tree::Two(kind, l, r) => {
            let (l, r) = (concatenate(l), concatenate(r));
            if *kind == SEQ {
                if let (Tree::Lit(k1, a), Tree::Lit(k2, b)) = (&l, &r) {
                    if k1 == k2 && (*k1 == STR || *k1 == INSENS) {
                        return Tree::Lit(*k1, [&a[..], &b[..]].concat());
                    }
                }
            }
            Tree::Two(*kind, Box::new(l), Box::new(r))
        }
        leaf => leaf.clone(),
    }
}

// Step 5.

fn factor(tree: &Tree<Text>, ty: u32) -> Tree<Text> {
    let node = match tree {
        Tree::Two(CHOICE, l, r) => factored(l, r, ty).unwrap_or_else(|| tree.clone()),
        other => other.clone(),
    };
    match node {
        Tree::One(kind, x, y, e) => Tree::One(kind, x, y, Box::new(factor(&e, ty))),
        Tree::Two(kind, l, r) => Tree::Two(kind, Box::new(factor(&l, ty)), Box::new(factor(&r, ty))),
        leaf => leaf,
    }
}

fn as_seq(tree: &Tree<Text>) -> Option<(&Tree<Text>, &Tree<Text>)> {
    match tree {
        Tree::Two(SEQ, a, b) => Some((a, b)),
        _ => None,
    }
}

fn factored(l: &Tree<Text>, r: &Tree<Text>, ty: u32) -> Option<Tree<Text>> {
    let two = |kind, a: &Tree<Text>, b: Tree<Text>| Tree::Two(kind, Box::new(a.clone()), Box::new(b));
    match (as_seq(l), as_seq(r)) {
        (Some((a, b)), Some((a2, c))) => {
            if a == a2 {
                return Some(two(SEQ, a, two(CHOICE, b, c.clone())));
            }
            None
        }
        (Some((a, b)), None) if ty == ATOMIC || ty == COMPOUND => {
            if a == r {
                return Some(two(SEQ, a, Tree::One(OPT, 0, 0, Box::new(b.clone()))));
            }
            None
        }
        (_, Some((a, _))) if a == l => Some(l.clone()),
        _ => None,
    }
}

// Step 6.

fn list(tree: &Tree<Text>) -> Tree<Text> {
    match tree {
        Tree::One(kind, x, y, e) => Tree::One(*kind, *x, *y, Box::new(list(e))),
        Tree::Two(kind, l, r) => {
            let (l, r) = (list(l), list(r));
            if *kind == SEQ {
                if let Tree::One(REP, _, _, body) = &l {
                    if let Some((a, b)) = as_seq(body) {
                        if *a == r {
                            let body = Tree::Two(SEQ, Box::new(b.clone()), Box::new(r));
                            return Tree::Two(SEQ, Box::new(a.clone()), Box::new(Tree::One(REP, 0, 0, Box::new(body))));
                        }
                    }
                }
            }
            Tree::Two(*kind, Box::new(l), Box::new(r))
        }
        leaf => leaf.clone(),
    }
}

// Step 7. Which rules reach a stack change: marked until nothing new is marked.

struct StackChanges {
    rules: HashMap<Text, bool>,
}

impl StackChanges {
    fn new(table: &[Rule<Text>]) -> Self {
        let mut stack = StackChanges { rules: table.iter().map(|rule| (rule.name.clone(), false)).collect() };
        loop {
            let mut new = false;
            for rule in table {
                if !stack.rules[&rule.name] && stack.can_change(&rule.tree) {
                    stack.rules.insert(rule.name.clone(), true);
                    new = true;
                }
            }
            if !new {
                return stack;
            }
        }
    }

    fn can_change(&self, tree: &Tree<Text>) -> bool {
        match tree {
            Tree::Lit(IDENT, name) => name == b"DROP" || name == b"POP" || self.rules.get(name) == Some(&true),
            Tree::Lit(..) | Tree::Fixed(..) | Tree::Skip(_) => false,
            Tree::One(PUSH, ..) => true,
            Tree::One(RESTORE, ..) => false,
            Tree::One(_, _, _, e) => self.can_change(e),
            Tree::Two(_, l, r) => self.can_change(l) || self.can_change(r),
        }
    }

    fn wrap(&self, tree: Tree<Text>) -> Box<Tree<Text>> {
        if self.can_change(&tree) {
            return Box::new(Tree::One(RESTORE, 0, 0, Box::new(tree)));
        }
        Box::new(tree)
    }
}

fn restore(tree: &Tree<Text>, stack: &StackChanges) -> Tree<Text> {
    match tree {
        Tree::One(kind, x, y, e) => {
            let e = restore(e, stack);
            let child = if *kind == OPT || *kind == REP { stack.wrap(e) } else { Box::new(e) };
            Tree::One(*kind, *x, *y, child)
        }
        Tree::Two(CHOICE, l, r) => Tree::Two(CHOICE, stack.wrap(restore(l, stack)), stack.wrap(restore(r, stack))),
        Tree::Two(kind, l, r) => Tree::Two(*kind, Box::new(restore(l, stack)), Box::new(restore(r, stack))),
        leaf => leaf.clone(),
    }
}
