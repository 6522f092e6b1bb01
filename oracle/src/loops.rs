// Document 02, No. 2: why a loop stayed a loop. The judge, random tables with loops, rows to ask about, and their runs.

use crate::table::*;
use crate::{damage, exhaustive, gen, judge, limits, original, print, replay, Rng};
use std::collections::HashMap;

/// The fourth word of a case for this tool is this plus `short`.
pub const TOOL: u32 = 2000;

/// What `replay` is given: a table, and the row that is asked about.
#[derive(Clone)]
pub struct Asked {
    pub table: Case,
    pub row: u64,
}

/// What it gives back: the answer with the rules being read, and whether all past them in the list is unchanged.
#[derive(Clone, Default, PartialEq, Eq, Debug)]
pub struct Explained {
    pub number: u32,
    pub answer: u32,
    pub rule: u32,
    pub at: u32,
    pub met: u32,
    pub open: Vec<u32>,
    pub rest_unchanged: u8,
}

impl Asked {
    pub fn bytes(&self) -> Vec<u8> {
        let table = Case { short: TOOL + self.table.short, ..self.table.clone() };
        [table.bytes(), self.row.to_le_bytes().to_vec()].concat()
    }

    /// What follows the table.
    pub fn read(table: Case, from: &mut &[u8]) -> Option<Asked> {
        let row = u64::from_le_bytes(read_bytes(from, 8)?.try_into().ok()?);
        Some(Asked { table: Case { short: table.short - TOOL, ..table }, row })
    }
}

impl Explained {
    pub fn bytes(&self) -> Vec<u8> {
        let mut words = vec![self.number, self.answer, self.rule, self.at, self.met, self.open.len() as u32];
        words.extend(&self.open);
        let mut out: Vec<u8> = words.iter().flat_map(|w| w.to_le_bytes()).collect();
        out.push(self.rest_unchanged);
        out
    }

    pub fn read(from: &mut &[u8]) -> Option<Explained> {
        let head = read_words(from, 6)?;
        if head[5] > 256 {
            return None;
        }
        Some(Explained {
            number: head[0],
            answer: head[1],
            rule: head[2],
            at: head[3],
            met: head[4],
            open: read_words(from, head[5] as usize)?,
            rest_unchanged: read_bytes(from, 1)?[0],
        })
    }
}

const SKIPS: u32 = 0;
const NOT_REP: u32 = 1;
const REGROUP: u32 = 2;
const NOT_ATOMIC: u32 = 3;
const NOT_SEQ: u32 = 4;
const NOT_NEG_PRED: u32 = 5;
const NOT_ANY: u32 = 6;
const UNKNOWN: u32 = 7;
const OTHER: u32 = 8;
const AGAIN: u32 = 9;

/// An expression with its row in the table, counted from the first rule's first row.
struct Node<'a> {
    row: u32,
    tree: &'a Tree<Text>,
    parts: Vec<Node<'a>>,
}

/// Rows are counted as they stand: children first, left before right; a Skip's strings are rows without a node.
fn number<'a>(tree: &'a Tree<Text>, next: &mut u32) -> Node<'a> {
    let parts = match tree {
        Tree::Lit(..) | Tree::Fixed(..) => Vec::new(),
        Tree::Skip(list) => {
            *next += list.len() as u32;
            Vec::new()
        }
        Tree::One(_, _, _, e) => vec![number(e, next)],
        Tree::Two(_, l, r) => {
            let left = number(l, next);
            vec![left, number(r, next)]
        }
    };
    *next += 1;
    Node { row: *next - 1, tree, parts }
}

fn find<'a, 'b>(node: &'b Node<'a>, row: u64) -> Option<&'b Node<'a>> {
    if node.row as u64 == row {
        return Some(node);
    }
    node.parts.iter().find_map(|part| find(part, row))
}

/// The judge, from document 02's words.
pub fn judge(asked: &Asked) -> Explained {
    judge_and_ask(asked).0
}

/// The same, and whether the original agrees: None where it isn't asked.
fn judge_and_ask(asked: &Asked) -> (Explained, Option<bool>) {
    let plain = |number, answer| Explained { number, answer, rest_unchanged: 1, ..Explained::default() };
    if asked.table.short == 1 || asked.table.short == 2 {
        return (plain(1, 0), None);
    }
    let table = match judge::accepted(&asked.table) {
        Ok(table) => resolve(&table, &asked.table.text),
        Err(number) => return (plain(number, 0), None),
    };
    let mut next = 0;
    let roots: Vec<Node> = table.iter().map(|rule| number(&rule.tree, &mut next)).collect();
    let found = roots.iter().enumerate().find_map(|(i, root)| Some((i, find(root, asked.row)?)));
    let Some((i, node)) = found else { return (plain(0, NOT_REP), None) };
    let mut steps = 0;
    let answer = match why(&table, &roots, i, node, &mut steps) {
        Ok(()) => plain(0, SKIPS),
        Err(reason) => Explained { rest_unchanged: 1, ..reason },
    };
    let agrees = agrees(&table, i, node, &answer, steps);
    (answer, agrees)
}

/// Whether the original's own first two steps do to the node what the answer says. They aren't asked where the second would not end, where it would
/// read more than so many expressions, and where it would read other loops too, those within this one.
fn agrees(table: &[Rule<Text>], i: usize, node: &Node, answer: &Explained, steps: u64) -> Option<bool> {
    match answer.answer {
        NOT_REP => None,
        REGROUP => Some(original::rotates(node.tree)),
        AGAIN => None,
        _ if steps > 10_000 || loops_in(node) > 1 => None,
        answer => Some(!original::rotates(node.tree) && original::skips(node.tree, table[i].ty, table) == (answer == SKIPS)),
    }
}

fn loops_in(node: &Node) -> usize {
    matches!(node.tree, Tree::One(REP, ..)) as usize + node.parts.iter().map(loops_in).sum::<usize>()
}

fn reason(answer: u32) -> Explained {
    Explained { answer, ..Explained::default() }
}

/// Why the node, an expression of rule i, is no loop that becomes a Skip; and how many expressions a reading without memory reads until then.
fn why(table: &[Rule<Text>], roots: &[Node], i: usize, node: &Node, steps: &mut u64) -> Result<(), Explained> {
    let Tree::One(REP, _, _, body) = node.tree else { return Err(reason(NOT_REP)) };
    if judge::rotate(node.tree) != *node.tree {
        return Err(reason(REGROUP));
    }
    if table[i].ty != ATOMIC {
        return Err(reason(NOT_ATOMIC));
    }
    let Tree::Two(SEQ, left, right) = &**body else { return Err(reason(NOT_SEQ)) };
    let Tree::One(NEG_PRED, ..) = **left else { return Err(reason(NOT_NEG_PRED)) };
    if **right != Tree::Lit(IDENT, b"ANY".to_vec()) {
        return Err(reason(NOT_ANY));
    }
    let names = table.iter().enumerate().map(|(j, rule)| (&rule.name, j)).collect();
    let mut reading = Reading { names, roots, through: vec![None; table.len()], open: Vec::new(), steps: 0 };
    // the Rep's Seq's NegPred's expression
    let end = reading.list(i, &node.parts[0].parts[0].parts[0]);
    *steps = reading.steps;
    end
}

struct Reading<'a> {
    names: HashMap<&'a Text, usize>,
    roots: &'a [Node<'a>],
    /// Rules that were read through to a list, with the expressions read for it: reading them again gives nothing new.
    through: Vec<Option<u64>>,
    /// The rules that are being read, outermost first.
    open: Vec<usize>,
    steps: u64,
}

impl Reading<'_> {
    fn list(&mut self, rule: usize, node: &Node) -> Result<(), Explained> {
        self.steps = self.steps.saturating_add(1);
        let here = Explained { rule: rule as u32, at: node.row, ..Explained::default() };
        match node.tree {
            Tree::Lit(STR, _) => Ok(()),
            Tree::Lit(IDENT, name) => match self.names.get(name).copied() {
                None => Err(Explained { answer: UNKNOWN, ..here }),
                Some(j) if self.open.contains(&j) => {
                    let open = self.open.iter().map(|k| *k as u32).collect();
                    Err(Explained { answer: AGAIN, met: j as u32, open, ..here })
                }
                Some(j) => self.rule(j),
            },
            Tree::Two(CHOICE, left, _) => {
                if !matches!(**left, Tree::Lit(STR | IDENT, _)) {
                    return Err(Explained { answer: OTHER, at: node.parts[0].row, ..here });
                }
                self.list(rule, &node.parts[0])?;
                self.list(rule, &node.parts[1])
            }
            _ => Err(Explained { answer: OTHER, ..here }),
        }
    }

    fn rule(&mut self, j: usize) -> Result<(), Explained> {
        if let Some(steps) = self.through[j] {
            self.steps = self.steps.saturating_add(steps);
            return Ok(());
        }
        let before = self.steps;
        self.open.push(j);
        let roots = self.roots;
        self.list(j, &roots[j])?;
        self.open.pop();
        self.through[j] = Some(self.steps - before);
        Ok(())
    }
}

// Random tables.

/// How often the items of lists are something that ends the reading, in per cent.
struct Odds {
    other: usize,
    unknown: usize,
    back: usize,
}

const NAMES: [&str; 14] = ["r", "x", "y", "z", "a", "ab", "ba", "", "AN", "ANYa", "any", "PO", "DROPS", "PEEK"];

/// What a rule's name is read as: mostly a later rule's, so that most readings end.
fn named(names: &[Text], i: usize, odds: &Odds, rng: &mut Rng) -> gen::T {
    if rng.percent(odds.unknown) {
        return gen::id(rng.pick(&["ANY", "POP", "q", "X", "rr", "SOI"]));
    }
    if rng.percent(odds.back) {
        return Tree::Lit(IDENT, rng.pick(names));
    }
    if i + 1 < names.len() {
        return Tree::Lit(IDENT, rng.pick(&names[i + 1..]));
    }
    gen::s("a")
}

fn item(names: &[Text], i: usize, odds: &Odds, rng: &mut Rng) -> gen::T {
    if rng.percent(odds.other) {
        return match rng.below(9) {
            0 => gen::lit(INSENS, "a"),
            1 => Tree::Fixed(RANGE, 97, 98),
            2 => Tree::Fixed(PEEK, 0, 0),
            3 => Tree::Skip(vec![b"a".to_vec(); rng.below(3)]),
            4 => gen::seq(gen::s("a"), gen::s("b")),
            5 => gen::choice(gen::s("a"), named(names, i, odds, rng)),
            6 => gen::one(rng.pick(&[POS_PRED, NEG_PRED, OPT, REP_ONCE, PUSH]), named(names, i, odds, rng)),
            7 => gen::count(rng.pick(&[REP_EXACT, REP_MIN, REP_MAX]), 1, 0, gen::s("a")),
            _ => gen::skip_loop(named(names, i, odds, rng)),
        };
    }
    if rng.percent(55) {
        return named(names, i, odds, rng);
    }
    gen::s(rng.pick(&["a", "b", "", "ab", "ANY"]))
}

/// What a skip list reads, or nearly that: items mostly nested to the right.
fn list(names: &[Text], i: usize, odds: &Odds, rng: &mut Rng) -> gen::T {
    let mut items: Vec<gen::T> = (0..rng.pick(&[1, 1, 2, 2, 3, 4])).map(|_| item(names, i, odds, rng)).collect();
    let nested_left = rng.percent(6);
    while items.len() > 1 {
        let at = if nested_left { 0 } else { items.len() - 2 };
        let right = items.remove(at + 1);
        let left = items.remove(at);
        items.insert(at, gen::choice(left, right));
    }
    items.remove(0)
}

/// A loop over the list e, or nearly that.
fn looped(e: gen::T, rng: &mut Rng) -> gen::T {
    let not = |e| gen::one(NEG_PRED, e);
    match rng.below(40) {
        0 => gen::one(REP, e),
        1 => gen::one(REP, not(e)),
        2 => gen::one(REP, gen::choice(not(e), gen::id("ANY"))),
        3 => gen::one(REP, gen::one(REP, gen::seq(not(e), gen::id("ANY")))),
        4 | 5 => gen::one(REP, gen::seq(gen::one(POS_PRED, e), gen::id("ANY"))),
        6 => gen::one(REP, gen::seq(gen::id("ANY"), not(e))),
        7 => gen::one(REP, gen::seq(e, gen::id("ANY"))),
        8 => gen::one(REP, gen::seq(not(e), gen::s("ANY"))),
        9 => gen::one(REP, gen::seq(not(e), gen::id(rng.pick(&["any", "AN", "ANYa", "x"])))),
        10 => gen::one(REP, gen::seq(not(e), gen::seq(gen::id("ANY"), gen::s("a")))),
        11 => gen::one(REP, gen::seq(gen::seq(not(e), gen::id("ANY")), gen::s("a"))),
        12 => gen::one(REP, gen::seq(not(gen::seq(gen::seq(e, gen::s("a")), gen::s("b"))), gen::id("ANY"))),
        13 => gen::one(REP_ONCE, gen::seq(not(e), gen::id("ANY"))),
        14 => gen::count(REP_MIN, 0, 0, gen::seq(not(e), gen::id("ANY"))),
        _ => gen::skip_loop(e),
    }
}

/// The loop somewhere in its rule.
fn around(e: gen::T, rng: &mut Rng) -> gen::T {
    match rng.below(16) {
        0 => gen::seq(gen::s("a"), e),
        1 => gen::seq(e, gen::id("x")),
        2 => gen::seq(gen::seq(gen::s("a"), e), gen::s("b")),
        3 => gen::choice(gen::choice(e.clone(), gen::s("b")), e),
        4 => gen::choice(gen::id("x"), e),
        5 => gen::one(rng.pick(&[OPT, PUSH, REP, NEG_PRED]), e),
        6 => gen::count(REP_EXACT, 2, 0, e),
        7 => gen::seq(Tree::Skip(vec![b"a".to_vec(), Vec::new()]), e),
        _ => e,
    }
}

fn draft(rng: &mut Rng) -> Vec<Rule<Text>> {
    let n = rng.pick(&[1, 2, 3, 3, 4, 4, 5, 6, 8, 12]);
    let mut names: Vec<Text> = Vec::new();
    while names.len() < n {
        let name = if rng.percent(70) { rng.pick(&NAMES).as_bytes().to_vec() } else { format!("n{}", rng.below(50)).into_bytes() };
        if !names.contains(&name) {
            names.push(name);
        }
    }
    let odds = Odds { other: rng.pick(&[0, 0, 2, 8]), unknown: rng.pick(&[0, 2, 5, 20]), back: rng.pick(&[0, 10, 40, 80]) };
    let loops = rng.pick(&[0, 20, 50]);
    let mut rules = Vec::new();
    for i in 0..n {
        let e = list(&names, i, &odds, rng);
        let tree = if i == 0 || rng.percent(loops) { around(looped(e, rng), rng) } else { e };
        let ty = if rng.percent(88) { ATOMIC } else { rng.below(5) as u32 };
        rules.push(Rule { name: names[i].clone(), ty, tree });
    }
    if rng.percent(20) {
        // the loop's rule stands elsewhere
        let to = rng.below(n);
        rules.swap(0, to);
    }
    rules
}

/// A loop over a long chain of rules, which ends in a list, in none or at a rule of the chain. The loop's own rule may be part of it.
fn chain(n: usize, rng: &mut Rng) -> Vec<Rule<Text>> {
    let name = |i: usize| format!("c{i}");
    let own = rng.percent(40);
    let start = if own { 0 } else { 1 };
    let first = gen::skip_loop(gen::id(&name(start)));
    let mut rules = vec![gen::rule(&name(0), ATOMIC, if own { gen::choice(gen::id(&name(1)), first) } else { first })];
    for i in 1..n {
        let next = if i + 1 < n { gen::id(&name(i + 1)) } else { gen::s("a") };
        let tree = match rng.below(6) {
            0 => gen::choice(gen::s("a"), next),
            1 => gen::choice(next, gen::s("b")),
            2 => gen::choice(next.clone(), next),
            _ => next,
        };
        rules.push(gen::rule(&name(i), rng.pick(&[NORMAL, ATOMIC]), tree));
    }
    let end = start + rng.below(n - start);
    rules[n - 1].tree = match rng.below(8) {
        0 => gen::s("b"),
        1 => gen::choice(gen::s("a"), gen::id("unknown")),
        2 => Tree::Fixed(RANGE, 97, 98),
        3 => gen::choice(gen::s("a"), gen::id(&name(start))),
        _ => gen::id(&name(end)),
    };
    if rng.percent(50) {
        for i in (1..n).rev() {
            rules.swap(i, rng.below(i + 1));
        }
    }
    rules
}

fn random_table(rng: &mut Rng) -> Case {
    let rules = match rng.below(400) {
        0 => return limits::large(rng),
        1 => chain(rng.pick(&[254, 255, 256, 256, 257]), rng),
        2..=12 => {
            let n = 2 + rng.below(30);
            chain(n, rng)
        }
        13..=90 => gen::draft(rng),
        _ => draft(rng),
    };
    gen::lay(&rules, rng)
}

fn reps(table: &Case) -> Vec<u64> {
    table.rows.chunks_exact(4).enumerate().filter(|(_, row)| row[0] == REP).map(|(i, _)| i as u64).collect()
}

fn random_asked(rng: &mut Rng) -> Asked {
    let mut table = Case { short: 0, ..random_table(rng) };
    if rng.percent(20) {
        damage::damage(&mut table, rng);
    }
    table.short = if rng.percent(5) { rng.pick(&[1, 2, 3, 100, 100, 999]) } else { 0 };
    let rows = table.rows.len() / 4;
    let reps = reps(&table);
    let rep = if reps.is_empty() { 0 } else { rng.pick(&reps) };
    let row = match rng.below(40) {
        0 | 1 => rng.below(rows + 1) as u64,
        2 => (rows + rng.below(3)) as u64,
        3 => rng.pick(&[u64::MAX, 1 << 62, 1 << 63, 1 << 32, 1 << 30, u64::MAX / 4]),
        // rows that stand for a Rep where their words' place is counted in too few bits
        4 => rng.pick(&[1 << 62, 3 << 62, 1 << 32, 1 << 30]) + rep,
        _ => rep,
    };
    Asked { table, row }
}

struct Run<'a> {
    replay: &'a [String],
    batch: Vec<(Asked, Explained)>,
    bytes: usize,
    cases: u64,
    refusals: [u64; 7],
    answers: [u64; 10],
    deep: u64,
    most: usize,
    by_original: u64,
    differences: u64,
}

impl<'a> Run<'a> {
    fn new(replay: &'a [String]) -> Self {
        Run { replay, batch: Vec::new(), bytes: 0, cases: 0, refusals: [0; 7], answers: [0; 10], deep: 0, most: 0, by_original: 0, differences: 0 }
    }

    fn count(&mut self, answer: &Explained) {
        self.cases += 1;
        self.refusals[answer.number as usize] += 1;
        self.answers[answer.answer as usize] += (answer.number == 0) as u64;
        self.deep += (answer.open.len() > 1) as u64;
        self.most = self.most.max(answer.open.len());
    }

    fn add(&mut self, asked: Asked) {
        let (answer, agrees) = judge_and_ask(&asked);
        self.count(&answer);
        self.by_original += agrees.is_some() as u64;
        if agrees == Some(false) && self.differences == 0 {
            self.differences += 1;
            println!("original and judge differ on\n{}row {}\nthe judge gives {answer:?}", print::case(&asked.table), asked.row);
        }
        self.bytes += asked.bytes().len();
        self.batch.push((asked, answer));
        if self.batch.len() >= 5000 || self.bytes > 16_000_000 {
            self.flush();
        }
    }

    fn flush(&mut self) {
        let batch = std::mem::take(&mut self.batch);
        self.bytes = 0;
        if self.replay.is_empty() || self.differences > 0 || batch.is_empty() {
            return;
        }
        let inputs: Vec<Vec<u8>> = batch.iter().map(|(asked, _)| asked.bytes()).collect();
        let answers = replay::run(self.replay, &inputs, Explained::read).unwrap_or_else(|message| {
            println!("{message}");
            Vec::new()
        });
        for (i, (asked, wanted)) in batch.iter().enumerate() {
            if answers.get(i) != Some(wanted) {
                self.differences += 1;
                println!("replay differs on\n{}row {}", print::case(&asked.table), asked.row);
                println!("wanted {wanted:?}\nreplay gives {:?}", answers.get(i));
                return;
            }
        }
    }

    fn end(mut self) -> i32 {
        self.flush();
        println!("accepted {}, refusals 1 to 6: {:?}", self.refusals[0], &self.refusals[1..]);
        println!("answers 0 to 9: {:?}; more than one rule being read: {}, at most {}", self.answers, self.deep, self.most);
        let asked = if self.replay.is_empty() { "" } else { " (replay asked for all)" };
        println!("rows {}, compared with the original {}, differences {}{asked}", self.cases, self.by_original, self.differences);
        (self.differences > 0) as i32
    }
}

pub fn random(seed: u64, count: u64, replay: &[String]) -> i32 {
    let mut rng = Rng(seed);
    let mut run = Run::new(replay);
    while run.cases < count && run.differences == 0 {
        let asked = random_asked(&mut rng);
        if crate::carried(&asked.table) {
            run.add(asked);
        }
    }
    run.end()
}

/// Every table of the exhaustive set, with each of its Rep rows, or row 0.
pub fn all(replay: &[String]) -> i32 {
    let mut run = Run::new(replay);
    exhaustive::all(&mut |table| {
        let mut rows = reps(&table);
        if rows.is_empty() {
            rows.push(0);
        }
        for row in rows {
            run.add(Asked { table: table.clone(), row });
        }
    });
    run.end()
}

/// Rows to look at by hand: W3, W4, W5's three, each other answer once, and every rule of a full table being read.
fn fixed() -> Vec<Asked> {
    let (a, b, c, x) = (gen::s("a"), gen::s("b"), gen::s("c"), gen::id("x"));
    let looped = gen::rule("r", ATOMIC, gen::skip_loop(x.clone()));
    let over = |tree: gen::T| vec![looped.clone(), gen::rule("x", NORMAL, tree)];
    let sole = |ty: u32, tree: gen::T| vec![gen::rule("r", ty, tree)];
    let name = |i: usize| format!("c{i}");
    let mut full = vec![gen::rule(&name(0), ATOMIC, gen::choice(gen::id(&name(1)), gen::skip_loop(gen::id(&name(0)))))];
    full.extend((1..256).map(|i| gen::rule(&name(i), NORMAL, gen::id(&name((i + 1) % 256)))));
    let tables = [
        (sole(ATOMIC, gen::skip_loop(gen::choice(a.clone(), b.clone()))), 6),
        (over(gen::choice(gen::choice(a.clone(), b.clone()), c.clone())), 4),
        (over(gen::choice(a.clone(), x.clone())), 4),
        (over(gen::choice(Tree::Fixed(RANGE, 97, 98), x.clone())), 4),
        (sole(ATOMIC, gen::skip_loop(gen::id("r"))), 4),
        (sole(ATOMIC, gen::skip_loop(a.clone())), 3),
        (sole(ATOMIC, gen::skip_loop(a.clone())), 1 << 62 | 4),
        (sole(ATOMIC, gen::skip_loop(gen::choice(gen::choice(a.clone(), b.clone()), c))), 8),
        (sole(NORMAL, gen::skip_loop(x.clone())), 4),
        (sole(ATOMIC, gen::one(REP, a.clone())), 1),
        (sole(ATOMIC, gen::one(REP, gen::seq(a.clone(), gen::id("ANY")))), 3),
        (sole(ATOMIC, gen::one(REP, gen::seq(gen::one(NEG_PRED, a), x.clone()))), 4),
        (sole(ATOMIC, gen::skip_loop(gen::choice(b, x))), 6),
        (full, 5),
    ];
    tables.into_iter().map(|(rules, row)| Asked { table: Case::packed(&rules), row }).collect()
}

/// The recorded sample: the fixed rows; six in a hundred of it for each of refusals 1 to 6; the rest spread over the ten answers.
pub fn record(seed: u64, count: u64, stdin_file: &str, stdout_file: &str) -> i32 {
    let mut rng = Rng(seed);
    let mut run = Run::new(&[]);
    let each = count * 6 / 100;
    let rest = count - 6 * each;
    let mut refusals = [each; 7];
    refusals[0] = rest;
    let mut answers = [0; 10];
    (0..rest).for_each(|i| answers[9 - i as usize % 10] += 1);
    let mut fixed = fixed();
    let (mut stdin, mut stdout) = (Vec::new(), Vec::new());
    while refusals.iter().any(|left| *left > 0) {
        let by_hand = fixed.pop();
        let hand = by_hand.is_some();
        let asked = by_hand.unwrap_or_else(|| random_asked(&mut rng));
        let size = asked.bytes().len();
        if !crate::carried(&asked.table) || !hand && size > 3000 && !(rng.percent(2) && size < 80_000) {
            continue;
        }
        let (answer, agrees) = judge_and_ask(&asked);
        assert!(agrees != Some(false), "original and judge differ");
        let left = if answer.number > 0 { &mut refusals[answer.number as usize] } else { &mut answers[answer.answer as usize] };
        if *left == 0 {
            continue;
        }
        *left -= 1;
        refusals[0] -= (answer.number == 0) as u64;
        stdin.extend(asked.bytes());
        stdout.extend(answer.bytes());
        run.count(&answer);
        run.by_original += agrees.is_some() as u64;
    }
    for (file, bytes) in [(stdin_file, &stdin), (stdout_file, &stdout)] {
        if let Err(e) = std::fs::write(file, bytes) {
            eprintln!("{file}: {e}");
            return 2;
        }
    }
    run.end()
}
