// Document 02, No. 1: two tables side by side. The judge of comparing and of the literal that is shown, random pairs, and their runs.

use crate::table::*;
use crate::{damage, exhaustive, gen, judge, limits, print, replay, Rng};
use std::collections::HashMap;

/// The fourth word of a case for this tool is this plus `short`.
pub const TOOL: u32 = 1000;

/// What `replay` is given: two tables, and the side, rule and row whose literal is asked for. The right table's fourth word is the side.
#[derive(Clone)]
pub struct Pair {
    pub left: Case,
    pub right: Case,
    pub rule: u64,
    pub row: u64,
}

/// What it gives back: the answer with the list, the literal, and whether all past the answer in the list is unchanged.
#[derive(Clone, PartialEq, Eq, Debug)]
pub struct Compared {
    pub number: u32,
    pub side: u32,
    pub list: Vec<[u32; 4]>,
    pub literal: [u32; 3],
    pub rest_unchanged: u8,
}

impl Pair {
    pub fn bytes(&self) -> Vec<u8> {
        let left = Case { short: TOOL + self.left.short, ..self.left.clone() };
        [left.bytes(), self.right.bytes(), self.rule.to_le_bytes().to_vec(), self.row.to_le_bytes().to_vec()].concat()
    }

    /// What follows the left table.
    pub fn read(left: Case, from: &mut &[u8]) -> Option<Pair> {
        let right = Case::read(from)?;
        let rule = read_bytes(from, 8)?;
        let row = read_bytes(from, 8)?;
        let number = |b: Vec<u8>| u64::from_le_bytes(b.try_into().unwrap());
        Some(Pair { left: Case { short: left.short - TOOL, ..left }, right, rule: number(rule), row: number(row) })
    }
}

impl Compared {
    pub fn bytes(&self) -> Vec<u8> {
        let mut words = vec![self.number, self.side, self.list.len() as u32];
        words.extend(self.literal);
        words.extend(self.list.iter().flatten());
        let mut out: Vec<u8> = words.iter().flat_map(|w| w.to_le_bytes()).collect();
        out.push(self.rest_unchanged);
        out
    }

    pub fn read(from: &mut &[u8]) -> Option<Compared> {
        let head = read_words(from, 6)?;
        if head[2] > 512 {
            return None;
        }
        let list = read_words(from, 4 * head[2] as usize)?;
        Some(Compared {
            number: head[0],
            side: head[1],
            list: list.chunks(4).map(|e| [e[0], e[1], e[2], e[3]]).collect(),
            literal: [head[3], head[4], head[5]],
            rest_unchanged: read_bytes(from, 1)?[0],
        })
    }
}

/// A tree's rows in postfix order, sizes and offsets apart.
#[derive(PartialEq)]
enum Row<'a> {
    Literal(u32, &'a [u8]),
    Other(u32, u32, u32),
}

fn rows<'a>(tree: &'a Tree<Text>, out: &mut Vec<Row<'a>>) {
    match tree {
        Tree::Lit(kind, l) => out.push(Row::Literal(*kind, l)),
        Tree::Fixed(kind, x, y) => out.push(Row::Other(*kind, *x, *y)),
        Tree::Skip(list) => {
            out.extend(list.iter().map(|l| Row::Literal(STR, l)));
            out.push(Row::Other(SKIP, list.len() as u32, 0));
        }
        Tree::One(kind, x, y, e) => {
            rows(e, out);
            out.push(Row::Other(*kind, *x, *y));
        }
        Tree::Two(kind, l, r) => {
            rows(l, out);
            rows(r, out);
            out.push(Row::Other(*kind, 0, 0));
        }
    }
}

fn first_difference(left: &Tree<Text>, right: &Tree<Text>) -> Option<u32> {
    let (mut l, mut r) = (Vec::new(), Vec::new());
    rows(left, &mut l);
    rows(right, &mut r);
    let same = l.iter().zip(&r).take_while(|(a, b)| a == b).count();
    if same == l.len() && same == r.len() {
        None
    } else {
        Some(same as u32)
    }
}

/// The judge, from document 02's words.
pub fn judge(pair: &Pair) -> Compared {
    let literal = literal(pair);
    let refused = |number, side| Compared { number, side, list: Vec::new(), literal, rest_unchanged: 1 };
    if (1..=3).contains(&pair.left.short) {
        return refused(1, 0);
    }
    let left = match judge::accepted(&pair.left) {
        Ok(table) => resolve(&table, &pair.left.text),
        Err(number) => return refused(number, 0),
    };
    let right = match judge::accepted(&pair.right) {
        Ok(table) => resolve(&table, &pair.right.text),
        Err(number) => return refused(number, 1),
    };
    let numbers: HashMap<&Text, usize> = right.iter().enumerate().map(|(j, rule)| (&rule.name, j)).collect();
    let mut found = vec![false; right.len()];
    let mut list = Vec::new();
    for (i, rule) in left.iter().enumerate() {
        let Some(j) = numbers.get(&rule.name).copied() else {
            list.push([0, i as u32, 0, 0]);
            continue;
        };
        found[j] = true;
        if rule.ty != right[j].ty {
            list.push([1, i as u32, j as u32, 0]);
        }
        if let Some(row) = first_difference(&rule.tree, &right[j].tree) {
            list.push([2, i as u32, j as u32, row]);
        }
    }
    list.extend((0..right.len()).filter(|j| !found[*j]).map(|j| [3, 0, j as u32, 0]));
    Compared { number: 0, side: 0, list, literal, rest_unchanged: 1 }
}

/// The literal at the asked row of the asked rule and side, on any words.
fn literal(pair: &Pair) -> [u32; 3] {
    let table = match pair.right.short {
        0 => &pair.left,
        1 => &pair.right,
        _ => return [0; 3],
    };
    let whole: Vec<&[u32]> = table.rules.chunks_exact(4).collect();
    if pair.rule >= whole.len() as u64 || pair.row >= whole[pair.rule as usize][3] as u64 {
        return [0; 3];
    }
    let before: u128 = whole[..pair.rule as usize].iter().map(|rule| rule[3] as u128).sum();
    let at = before + pair.row as u128;
    let rows: Vec<&[u32]> = table.rows.chunks_exact(4).collect();
    if at >= rows.len() as u128 {
        return [0; 3];
    }
    let row = rows[at as usize];
    if ![STR, INSENS, IDENT].contains(&row[0]) || row[1] as u64 + row[2] as u64 > table.text.len() as u64 {
        return [0; 3];
    }
    [1, row[1], row[2]]
}

/// A right table for a left one: the same rules in another order and other text, with a few changes; or another table.
fn other(rules: &[Rule<Text>], rng: &mut Rng) -> Vec<Rule<Text>> {
    if rng.percent(10) {
        return gen::draft(rng);
    }
    let mut right = rules.to_vec();
    for i in (1..right.len()).rev() {
        right.swap(i, rng.below(i + 1));
    }
    let changes = rng.pick(&[0, 0, 1, 1, 1, 2, 3, 5]);
    for _ in 0..changes {
        if right.is_empty() {
            break;
        }
        let i = rng.below(right.len());
        match rng.below(6) {
            0 => {
                right.remove(i);
            }
            1 => right[i].ty = rng.below(5) as u32,
            2 => right[i].name.push(b'_'),
            3 => right[i].tree = gen::seq(right[i].tree.clone(), gen::s("a")),
            _ => right[i].tree = gen::nearly(&right[i].tree, rng),
        }
    }
    if rng.percent(15) {
        right.push(gen::rule("only_right", 0, gen::s("b")));
    }
    right
}

fn random_pair(rng: &mut Rng) -> Pair {
    let (left, mut right) = if rng.below(500) == 0 {
        let left = limits::large(rng);
        let right = if rng.percent(50) { left.clone() } else { limits::large(rng) };
        (left, right)
    } else {
        let rules = gen::draft(rng);
        let others = other(&rules, rng);
        (gen::lay(&rules, rng), gen::lay(&others, rng))
    };
    let mut left = Case { short: 0, ..left };
    if rng.percent(12) {
        damage::damage(&mut left, rng);
    }
    if rng.percent(12) {
        damage::damage(&mut right, rng);
    }
    left.short = if rng.percent(4) { rng.pick(&[1, 2, 3, 4, 100, 100, 999]) } else { 0 };
    asked(left, right, rng)
}

/// The pair with a literal asked for: mostly a row near what is there, sometimes far past it.
fn asked(left: Case, mut right: Case, rng: &mut Rng) -> Pair {
    right.short = rng.pick(&[0, 0, 0, 1, 1, 1, 1, 2, u32::MAX]);
    let table = if right.short == 0 { &left } else { &right };
    let far = |rng: &mut Rng, near: usize| match rng.below(12) {
        0 => rng.pick(&[u64::MAX, 1 << 32, 1 << 62, u64::MAX / 4, 1 << 63]),
        _ => rng.below(near) as u64,
    };
    let rule = far(rng, table.rules.len() / 4 + 1);
    let rows = table.rules.get((rule as usize).saturating_mul(4).saturating_add(3)).map_or(3, |n| *n as usize);
    let row = far(rng, rows.min(5000) + 1);
    Pair { left, right, rule, row }
}

struct Run<'a> {
    replay: &'a [String],
    batch: Vec<(Pair, Compared)>,
    bytes: usize,
    cases: u64,
    entries: [u64; 4],
    empty: u64,
    literals: u64,
    refusals: [u64; 9],
    differences: u64,
}

impl<'a> Run<'a> {
    fn new(replay: &'a [String]) -> Self {
        Run { replay, batch: Vec::new(), bytes: 0, cases: 0, entries: [0; 4], empty: 0, literals: 0, refusals: [0; 9], differences: 0 }
    }

    fn count(&mut self, answer: &Compared) {
        self.cases += 1;
        self.refusals[answer.number as usize] += 1;
        self.empty += (answer.number == 0 && answer.list.is_empty()) as u64;
        self.literals += answer.literal[0] as u64;
        answer.list.iter().for_each(|e| self.entries[e[0] as usize] += 1);
    }

    fn add(&mut self, pair: Pair) {
        let answer = judge(&pair);
        self.count(&answer);
        self.bytes += pair.bytes().len();
        self.batch.push((pair, answer));
        if self.batch.len() >= 5000 || self.bytes > 16_000_000 {
            self.flush();
        }
    }

    fn flush(&mut self) {
        let batch = std::mem::take(&mut self.batch);
        self.bytes = 0;
        if self.replay.is_empty() || self.differences > 0 || batch.is_empty() {
            return;
        }
        let inputs: Vec<Vec<u8>> = batch.iter().map(|(pair, _)| pair.bytes()).collect();
        let answers = replay::run(self.replay, &inputs, Compared::read).unwrap_or_else(|message| {
            println!("{message}");
            Vec::new()
        });
        for (i, (pair, wanted)) in batch.iter().enumerate() {
            if answers.get(i) != Some(wanted) {
                self.differences += 1;
                println!("replay differs on\n{}and\n{}", print::case(&pair.left), print::case(&pair.right));
                println!("side {} rule {} row {}\nwanted {wanted:?}\nreplay gives {:?}", pair.right.short, pair.rule, pair.row, answers.get(i));
                return;
            }
        }
    }

    fn end(mut self) -> i32 {
        self.flush();
        println!("accepted {}, refusals 1 to 6: {:?}, empty lists {}", self.refusals[0], &self.refusals[1..7], self.empty);
        println!("entries of sorts 0 to 3: {:?}; literals shown {}", self.entries, self.literals);
        let asked = if self.replay.is_empty() { "" } else { " (replay asked for all)" };
        println!("pairs {}, differences {}{asked}", self.cases, self.differences);
        (self.differences > 0) as i32
    }
}

fn carried(pair: &Pair) -> bool {
    crate::carried(&pair.left) && crate::carried(&pair.right)
}

pub fn random(seed: u64, count: u64, replay: &[String]) -> i32 {
    let mut rng = Rng(seed);
    let mut run = Run::new(replay);
    while run.cases < count && run.differences == 0 {
        let pair = random_pair(&mut rng);
        if carried(&pair) {
            run.add(pair);
        }
    }
    run.end()
}

/// Every table of the exhaustive set beside the one before it.
pub fn all(replay: &[String]) -> i32 {
    let mut rng = Rng(1);
    let mut run = Run::new(replay);
    let mut before: Option<Case> = None;
    exhaustive::all(&mut |case| {
        let left = before.replace(case.clone()).unwrap_or_else(|| case.clone());
        run.add(asked(left, case, &mut rng));
    });
    run.end()
}

/// Pairs to look at by hand: equal up to order, only left, only right, type and tree, a prefix either way, a last byte, empty tables.
fn fixed() -> Vec<Pair> {
    let (r, x) = (gen::rule("r", NORMAL, gen::seq(gen::s("ab"), gen::id("x"))), gen::rule("x", ATOMIC, gen::s("abc")));
    let longer = gen::rule("x", ATOMIC, gen::seq(gen::s("abc"), gen::s("d")));
    let other = gen::rule("r", SILENT, gen::seq(gen::s("ab"), gen::id("y")));
    let last = gen::rule("x", ATOMIC, gen::s("abd"));
    let (both, back) = (vec![r.clone(), x.clone()], vec![x.clone(), r.clone()]);
    let pairs = [
        (both.clone(), back),
        (both.clone(), vec![r.clone()]),
        (vec![x.clone()], both.clone()),
        (both.clone(), vec![x.clone(), other]),
        (both.clone(), vec![r.clone(), longer.clone()]),
        (vec![longer], both.clone()),
        (both.clone(), vec![last, r]),
        (Vec::new(), both),
        (Vec::new(), Vec::new()),
    ];
    let pair = |(left, right): (Vec<Rule<Text>>, Vec<Rule<Text>>)| Pair { left: Case::packed(&left), right: Case::packed(&right), rule: 0, row: 0 };
    pairs.into_iter().map(pair).collect()
}

/// The recorded sample: the fixed pairs; a twelfth of it for each of refusals 1 to 6; the rest accepted, one in five of those with an empty list.
pub fn record(seed: u64, count: u64, stdin_file: &str, stdout_file: &str) -> i32 {
    let mut rng = Rng(seed);
    let mut run = Run::new(&[]);
    let mut room = [count / 12; 7];
    room[0] = count - 6 * room[1];
    let mut empty = room[0] / 5;
    let mut fixed = fixed();
    let (mut stdin, mut stdout) = (Vec::new(), Vec::new());
    while room.iter().any(|left| *left > 0) {
        let pair = fixed.pop().unwrap_or_else(|| random_pair(&mut rng));
        if !carried(&pair) || pair.bytes().len() > 3000 && !(rng.percent(2) && pair.bytes().len() < 80_000) {
            continue;
        }
        let answer = judge(&pair);
        let left = &mut room[answer.number as usize];
        let plain = answer.number == 0 && answer.list.is_empty();
        if *left == 0 || plain && empty == 0 || answer.bytes().len() > 5000 {
            continue;
        }
        *left -= 1;
        empty -= plain as u64;
        stdin.extend(pair.bytes());
        stdout.extend(answer.bytes());
        run.count(&answer);
    }
    for (file, bytes) in [(stdin_file, &stdin), (stdout_file, &stdout)] {
        if let Err(e) = std::fs::write(file, bytes) {
            eprintln!("{file}: {e}");
            return 2;
        }
    }
    run.end()
}
