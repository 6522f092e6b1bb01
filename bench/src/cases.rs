// Writes the four generated inputs of the measurement, in replay's format:  cases OUT_FOLDER

#[path = "../../oracle/src/gen.rs"]
#[allow(dead_code)]
mod gen;
#[path = "../../oracle/src/table.rs"]
#[allow(dead_code)]
mod table;

use gen::*;
use table::*;

fn main() {
    let out = std::env::args().nth(1).expect("a folder");
    for (name, rules) in [("full", full()), ("unroll", unroll()), ("restore", restore()), ("doubling", doubling())] {
        let rows: usize = rules.iter().map(|rule| rule.tree.rows()).sum();
        std::fs::write(format!("{out}/{name}.case"), Case::packed(&rules).bytes()).expect("the case file");
        println!("{name}: {} rules, {rows} rows", rules.len());
    }
}

/// 256 rules of about 15 rows of every kind that grammars use, referring to rules that come soon after.
fn full() -> Vec<Rule<Text>> {
    let mut rng = Rng(2048);
    let mut rules: Vec<Rule<Text>> = Vec::new();
    for i in 0..256usize {
        let name = |k: usize| id(&format!("rule_{}", (i + k).min(255)));
        let word = |k: usize| s(&format!("w{}", (i * 7 + k) % 90));
        let range = Tree::Fixed(RANGE, 97, 122);
        let tree = match rng.below(8) {
            _ if i == 24 => seq(one(PUSH, word(0)), seq(name(1), id("POP"))), // seen by the rules before it
            0 => seq(seq(seq(word(0), name(1)), one(OPT, seq(word(1), name(2)))), one(REP, choice(word(2), choice(range, word(3))))),
            1 => choice(word(4), choice(choice(seq(word(1), word(2)), word(5)), choice(seq(word(0), name(1)), seq(word(0), name(3))))),
            2 => seq(skip_loop(choice(word(0), choice(word(1), word(2)))), seq(word(0), seq(one(OPT, name(2)), word(3)))),
            3 => seq(one(REP, seq(name(1), word(0))), choice(name(1), seq(one(POS_PRED, word(1)), choice(word(2), choice(range, word(3)))))),
            4 => seq(one(REP, seq(name(2), word(1))), name(2)),
            5 => seq(word(0), seq(word(1), seq(lit(INSENS, "x"), seq(lit(INSENS, "y"), one(OPT, seq(name(1), choice(word(2), word(3)))))))),
            6 => choice(seq(name(1), one(REP, seq(word(0), name(2)))), choice(seq(word(1), name(3)), seq(one(NEG_PRED, word(2)), range))),
            _ => seq(count(REP_MIN_MAX, 1, 2, word(0)), seq(one(REP_ONCE, range), choice(name(4), seq(word(1), choice(word(2), word(3)))))),
        };
        rules.push(rule(&format!("rule_{i}"), [NORMAL, SILENT, ATOMIC, ATOMIC, COMPOUND][i % 5], tree));
    }
    // filled up to 4,000 rows with strings in a choice
    let rows: usize = rules.iter().map(|rule| rule.tree.rows()).sum();
    let each = (4000 - rows) / 2 / 256;
    for (i, rule) in rules.iter_mut().enumerate() {
        for k in 0..each {
            rule.tree = choice(s(&format!("f{i}_{k}")), rule.tree.clone());
        }
    }
    rules
}

/// Document 01's W11: 4,095 rows after the third step.
fn unroll() -> Vec<Rule<Text>> {
    vec![rule("r", NORMAL, count(REP_EXACT, 2048, 0, s("a")))]
}

/// 128 rules; each refers to the next ones under Opt, Rep and Choice; the stack changes in the last rule only.
fn restore() -> Vec<Rule<Text>> {
    (0..128usize)
        .map(|i| {
            let name = |k: usize| id(&format!("rule_{}", (i + k).min(127)));
            let tree = if i == 127 {
                choice(s("a"), choice(s("b"), one(PUSH, s("c"))))
            } else {
                let first = one(OPT, seq(s("a"), name(1)));
                let second = one(REP, choice(s("b"), seq(s("c"), name(2))));
                let third = choice(one(OPT, choice(s("d"), s("e"))), one(REP, seq(s("f"), s("g"))));
                seq(third, seq(first, second))
            };
            rule(&format!("rule_{i}"), NORMAL, tree)
        })
        .collect()
}

/// A list that doubles ten times: 1,024 strings.
fn doubling() -> Vec<Rule<Text>> {
    let mut rules = vec![rule("r", ATOMIC, skip_loop(id("n0")))];
    for i in 0..10 {
        let next = || id(&format!("n{}", i + 1));
        rules.push(rule(&format!("n{i}"), NORMAL, choice(next(), next())));
    }
    rules.push(rule("n10", NORMAL, s("a")));
    rules
}
