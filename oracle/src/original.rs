// Runs the original on a table and packs its tree; counts rows and text after each of its steps for the report and refusal 8.

use crate::table::*;
use original::ast::{Expr, Rule as OriginalRule, RuleType};
use original::optimizer::{OptimizedExpr, OptimizedRule};
use std::collections::HashMap;
use std::panic::{catch_unwind, AssertUnwindSafe};

/// The original's answer to a table that passes refusals 1 to 7; None where it has none, or would need more than
/// `patience` (roughly: copied nodes) to give it. An Err is a panic that nothing here foresaw.
pub fn answer(given: &[Rule<Span>], text: &[u8], patience: u128) -> Result<Option<Answer>, String> {
    let (rows, bytes) = packed_size(given, |span| span.1 as usize);
    if bytes > FULL_TEXT || rows > FULL_ROWS {
        return Ok(Some(Answer::refused(8)));
    }
    let table = resolve(given, text);
    if !has_answer(&table) || cost(&table) > patience {
        return Ok(None);
    }
    let rules = to_original(&table);
    catch_unwind(AssertUnwindSafe(|| run(rules, rows, patience))).map_err(|_| "the original panics".to_string())
}

fn run(rules: Vec<OriginalRule>, rows: usize, patience: u128) -> Option<Answer> {
    let lists: HashMap<String, Expr> = rules.iter().map(|rule| (rule.name.clone(), rule.expr.clone())).collect();
    let mut table = rules.clone();
    let mut counts = vec![rows];
    for step in 1..=6 {
        if step == 3 {
            let size = table.iter().fold(0u128, |n, rule| n.saturating_add(unrolled(&rule.expr)));
            if size > patience {
                return None;
            }
        }
        table = table.into_iter().map(|rule| one_step(step, rule, &lists)).collect();
        let (rows, bytes) = sizes(&table);
        if rows > FULL_ROWS || bytes > FULL_TEXT {
            return Some(Answer::refused(8));
        }
        counts.push(rows);
    }
    if restore_cost(&table) > patience {
        return None;
    }
    let optimized = original::optimizer::optimize(rules);
    let table: Vec<Rule<Text>> = optimized.iter().map(from_optimized_rule).collect();
    let (rows, bytes) = packed_size(&table, |l| l.len());
    if rows > FULL_ROWS || bytes > FULL_TEXT {
        return Some(Answer::refused(8));
    }
    counts.push(rows);
    let mut report = [0; 14];
    for step in 0..7 {
        report[2 * step] = counts[step] as u32;
        report[2 * step + 1] = counts[step + 1] as u32;
    }
    let (rules, rows, text) = pack(&table);
    Some(Answer { number: 0, rules, rows, text, report, rest_unchanged: 1 })
}

fn one_step(step: usize, rule: OriginalRule, lists: &HashMap<String, Expr>) -> OriginalRule {
    match step {
        1 => original::rotator::rotate(rule),
        2 => original::skipper::skip(rule, lists),
        3 => original::unroller::unroll(rule),
        4 => original::concatenator::concatenate(rule),
        5 => original::factorizer::factor(rule),
        _ => original::lister::list(rule),
    }
}

/// Whether the original's first step changes a tree.
pub fn rotates(tree: &Tree<Text>) -> bool {
    let rule = OriginalRule { name: String::new(), ty: RuleType::Normal, expr: to_expr(tree) };
    original::rotator::rotate(rule.clone()) != rule
}

/// Whether its second step, alone, makes a tree of a rule of that type a Skip, names looked up in the table.
pub fn skips(tree: &Tree<Text>, ty: u32, table: &[Rule<Text>]) -> bool {
    let lists: HashMap<String, Expr> = table.iter().map(|rule| (string(&rule.name), to_expr(&rule.tree))).collect();
    let rule = OriginalRule { name: String::new(), ty: rule_type(ty), expr: to_expr(tree) };
    matches!(original::skipper::skip(rule, &lists).expr, Expr::Skip(_))
}

/// The original's own rules for a table.
pub fn to_original(table: &[Rule<Text>]) -> Vec<OriginalRule> {
    table.iter().map(|rule| OriginalRule { name: string(&rule.name), ty: rule_type(rule.ty), expr: to_expr(&rule.tree) }).collect()
}

fn string(bytes: &[u8]) -> String {
    String::from_utf8(bytes.to_vec()).expect("ASCII")
}

fn rule_type(ty: u32) -> RuleType {
    match ty {
        NORMAL => RuleType::Normal,
        SILENT => RuleType::Silent,
        ATOMIC => RuleType::Atomic,
        COMPOUND => RuleType::CompoundAtomic,
        NON_ATOMIC => RuleType::NonAtomic,
        _ => unreachable!(),
    }
}

fn to_expr(tree: &Tree<Text>) -> Expr {
    match tree {
        Tree::Lit(STR, l) => Expr::Str(string(l)),
        Tree::Lit(INSENS, l) => Expr::Insens(string(l)),
        Tree::Lit(_, l) => Expr::Ident(string(l)),
        Tree::Fixed(RANGE, x, y) => Expr::Range(string(&[*x as u8]), string(&[*y as u8])),
        Tree::Fixed(PEEK, x, _) => Expr::PeekSlice(*x as i32, None),
        Tree::Fixed(_, x, y) => Expr::PeekSlice(*x as i32, Some(*y as i32)),
        Tree::Skip(list) => Expr::Skip(list.iter().map(|l| string(l)).collect()),
        Tree::Two(kind, l, r) => {
            let (l, r) = (Box::new(to_expr(l)), Box::new(to_expr(r)));
            if *kind == SEQ {
                Expr::Seq(l, r)
            } else {
                Expr::Choice(l, r)
            }
        }
        Tree::One(kind, x, y, e) => {
            let e = Box::new(to_expr(e));
            match *kind {
                POS_PRED => Expr::PosPred(e),
                NEG_PRED => Expr::NegPred(e),
                OPT => Expr::Opt(e),
                REP => Expr::Rep(e),
                REP_ONCE => Expr::RepOnce(e),
                REP_EXACT => Expr::RepExact(e, *x),
                REP_MIN => Expr::RepMin(e, *x),
                REP_MAX => Expr::RepMax(e, *x),
                REP_MIN_MAX => Expr::RepMinMax(e, *x, *y),
                PUSH => Expr::Push(e),
                _ => unreachable!(),
            }
        }
    }
}

fn from_optimized_rule(rule: &OptimizedRule) -> Rule<Text> {
    let ty = match rule.ty {
        RuleType::Normal => NORMAL,
        RuleType::Silent => SILENT,
        RuleType::Atomic => ATOMIC,
        RuleType::CompoundAtomic => COMPOUND,
        RuleType::NonAtomic => NON_ATOMIC,
    };
    Rule { name: rule.name.clone().into_bytes(), ty, tree: from_optimized(&rule.expr) }
}

fn from_optimized(e: &OptimizedExpr) -> Tree<Text> {
    let one = |kind, e: &OptimizedExpr| Tree::One(kind, 0, 0, Box::new(from_optimized(e)));
    let byte = |s: &String| s.as_bytes()[0] as u32;
    match e {
        OptimizedExpr::Str(s) => Tree::Lit(STR, s.clone().into_bytes()),
        OptimizedExpr::Insens(s) => Tree::Lit(INSENS, s.clone().into_bytes()),
        OptimizedExpr::Range(a, b) => Tree::Fixed(RANGE, byte(a), byte(b)),
        OptimizedExpr::Ident(s) => Tree::Lit(IDENT, s.clone().into_bytes()),
        OptimizedExpr::PeekSlice(a, None) => Tree::Fixed(PEEK, *a as u32, 0),
        OptimizedExpr::PeekSlice(a, Some(b)) => Tree::Fixed(PEEK_END, *a as u32, *b as u32),
        OptimizedExpr::PosPred(e) => one(POS_PRED, e),
        OptimizedExpr::NegPred(e) => one(NEG_PRED, e),
        OptimizedExpr::Seq(l, r) => Tree::Two(SEQ, Box::new(from_optimized(l)), Box::new(from_optimized(r))),
        OptimizedExpr::Choice(l, r) => Tree::Two(CHOICE, Box::new(from_optimized(l)), Box::new(from_optimized(r))),
        OptimizedExpr::Opt(e) => one(OPT, e),
        OptimizedExpr::Rep(e) => one(REP, e),
        OptimizedExpr::Skip(list) => Tree::Skip(list.iter().map(|s| s.clone().into_bytes()).collect()),
        OptimizedExpr::Push(e) => one(PUSH, e),
        OptimizedExpr::RestoreOnErr(e) => one(RESTORE, e),
    }
}

/// The children of a node of the original's tree.
fn children(e: &Expr) -> Vec<&Expr> {
    match e {
        Expr::PosPred(e) | Expr::NegPred(e) | Expr::Opt(e) | Expr::Rep(e) | Expr::RepOnce(e) | Expr::Push(e) => vec![e],
        Expr::RepExact(e, _) | Expr::RepMin(e, _) | Expr::RepMax(e, _) | Expr::RepMinMax(e, _, _) => vec![e],
        Expr::Seq(l, r) | Expr::Choice(l, r) => vec![l, r],
        _ => Vec::new(),
    }
}

fn sizes(table: &[OriginalRule]) -> (usize, usize) {
    fn add(e: &Expr, total: &mut (usize, usize)) {
        total.0 += 1;
        match e {
            Expr::Str(s) | Expr::Insens(s) | Expr::Ident(s) => total.1 += s.len(),
            Expr::Skip(list) => {
                total.0 += list.len();
                total.1 += list.iter().map(|s| s.len()).sum::<usize>();
            }
            _ => {}
        }
        children(e).into_iter().for_each(|child| add(child, total));
    }
    let mut total = (0, 0);
    for rule in table {
        total.1 += rule.name.len();
        add(&rule.expr, &mut total);
    }
    total
}

// What the original would cost, so that it isn't asked where it would take minutes or all memory.

/// Counts at which the original's `num + 1` wraps: it panics there.
fn has_answer(table: &[Rule<Text>]) -> bool {
    fn good(tree: &Tree<Text>) -> bool {
        match tree {
            Tree::One(kind, x, y, e) => {
                let top = match *kind {
                    REP_EXACT | REP_MAX => *x == u32::MAX,
                    REP_MIN_MAX => *y == u32::MAX,
                    REP_MIN => *x >= u32::MAX - 1,
                    _ => false,
                };
                !top && good(e)
            }
            Tree::Two(_, l, r) => good(l) && good(r),
            _ => true,
        }
    }
    table.iter().all(|rule| good(&rule.tree))
}

/// About the rows of an unrolled tree, stopping at the top.
fn unrolled(e: &Expr) -> u128 {
    let below = children(e).into_iter().fold(0u128, |n, child| n.saturating_add(unrolled(child)));
    match e {
        Expr::RepOnce(_) => below.saturating_mul(2).saturating_add(2),
        Expr::RepExact(_, n) | Expr::RepMin(_, n) | Expr::RepMax(_, n) | Expr::RepMinMax(_, _, n) => {
            below.saturating_add(2).saturating_mul(*n as u128 + 1)
        }
        Expr::Skip(list) => list.iter().fold(1, |n, s| n + weight(s.len())),
        Expr::Str(s) | Expr::Insens(s) | Expr::Ident(s) => weight(s.len()),
        _ => below.saturating_add(1),
    }
}

/// A leaf, with something for the bytes of a long literal.
fn weight(length: usize) -> u128 {
    1 + length as u128 / 32
}

/// Nodes copied by the skipper: every subtree of an Atomic rule once, and a rule's whole tree each time that a list reads it.
fn cost(table: &[Rule<Text>]) -> u128 {
    fn subtrees(tree: &Tree<Text>, sum: &mut u128) -> u128 {
        let rows = match tree {
            Tree::One(_, _, _, e) => 1 + subtrees(e, sum),
            Tree::Two(_, l, r) => 1 + subtrees(l, sum) + subtrees(r, sum),
            Tree::Skip(list) => list.iter().fold(1, |n, l| n + weight(l.len())),
            Tree::Lit(_, l) => weight(l.len()),
            Tree::Fixed(..) => 1,
        };
        *sum = sum.saturating_add(rows);
        rows
    }
    let mut reads = ReadCosts { table, done: HashMap::new() };
    let mut total = 0u128;
    for rule in table.iter().filter(|rule| rule.ty == ATOMIC) {
        subtrees(&rule.tree, &mut total);
        reads.loops(&rule.tree, &mut total);
    }
    total
}

fn whole(tree: &Tree<Text>) -> u128 {
    let mut total = tree.rows() as u128;
    tree.literals(&mut |_, l| total += weight(l.len()));
    total
}

struct ReadCosts<'a> {
    table: &'a [Rule<Text>],
    done: HashMap<&'a [u8], u128>,
}

impl<'a> ReadCosts<'a> {
    fn loops(&mut self, tree: &'a Tree<Text>, total: &mut u128) {
        match tree {
            Tree::One(NEG_PRED, _, _, e) => {
                *total = total.saturating_add(self.read(e));
                self.loops(e, total);
            }
            Tree::One(_, _, _, e) => self.loops(e, total),
            Tree::Two(_, l, r) => {
                self.loops(l, total);
                self.loops(r, total);
            }
            _ => {}
        }
    }

    /// An upper bound: every Ident below Choices is taken as read.
    fn read(&mut self, e: &'a Tree<Text>) -> u128 {
        match e {
            Tree::Two(CHOICE, l, r) => self.read(l).saturating_add(self.read(r)),
            Tree::Lit(IDENT, name) => {
                if let Some(cost) = self.done.get(&name[..]) {
                    return *cost;
                }
                self.done.insert(name, 0); // a rule met again in its own reading is refusal 7, or never reached
                let table = self.table;
                let cost = match table.iter().find(|rule| rule.name == *name) {
                    Some(rule) => self.read(&rule.tree).saturating_add(whole(&rule.tree)),
                    None => 1,
                };
                self.done.insert(name, cost);
                cost
            }
            _ => 1,
        }
    }
}

/// Nodes copied by the restorer: each question copies the subtrees that it visits, of its own rule and of all rules it can reach.
fn restore_cost(table: &[OriginalRule]) -> u128 {
    fn walk(e: &Expr, sum: &mut u128, questions: &mut u128, names: &mut Vec<String>) -> u128 {
        let mut rows = 1;
        for child in children(e) {
            rows += walk(child, sum, questions, names);
        }
        match e {
            Expr::Opt(_) | Expr::Rep(_) => *questions += 1,
            Expr::Choice(..) => *questions += 2,
            Expr::Ident(name) => {
                names.push(name.clone());
                rows = weight(name.len());
            }
            Expr::Str(s) | Expr::Insens(s) => rows = weight(s.len()),
            Expr::Skip(list) => rows = list.iter().fold(1, |n, s| n + weight(s.len())),
            _ => {}
        }
        *sum = sum.saturating_add(rows);
        rows
    }
    let place: HashMap<&String, usize> = table.iter().enumerate().map(|(i, rule)| (&rule.name, i)).collect();
    let mut rules = Vec::new();
    for rule in table {
        let (mut sum, mut questions, mut names) = (0, 0, Vec::new());
        walk(&rule.expr, &mut sum, &mut questions, &mut names);
        let to: Vec<usize> = names.iter().filter_map(|name| place.get(name).copied()).collect();
        rules.push((sum, questions, to));
    }
    let mut total = 0u128;
    for start in 0..rules.len() {
        let mut seen = vec![false; rules.len()];
        let mut open = vec![start];
        let mut reached = 0u128;
        while let Some(i) = open.pop() {
            if !seen[i] {
                seen[i] = true;
                reached += rules[i].0;
                open.extend(&rules[i].2);
            }
        }
        total = total.saturating_add(rules[start].1.saturating_mul(reached));
    }
    total
}
