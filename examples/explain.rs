// Why loops of an order-entry grammar stay loops, in words.

#[path = "../rust/arvedun.rs"]
#[allow(dead_code)]
mod arvedun;
#[allow(dead_code)]
mod grammar;

use arvedun::{Explainer, Explanation, Grammar};
use grammar::*;

const NEG_PRED: u32 = 7;
const REP: u32 = 11;

/// NAME = { (!LIST ~ ANY)* }
fn over(g: &mut Builder, name: &str, ty: u32, list: &str) {
    g.rule(name, ty).lit(IDENT, list).one(NEG_PRED, 0).lit(IDENT, "ANY").two(SEQ).one(REP, 0);
}

fn first_row(g: Grammar, rule: usize) -> usize {
    g.rules.chunks(4).take(rule).map(|r| r[3] as usize).sum()
}

fn explain(explainer: &mut Explainer, g: Grammar, rule: usize, row: usize) {
    let place = |rule: usize, at: usize| format!("row {} of {}", at - first_row(g, rule), name(g, rule));
    let words = match explainer.explain(g, row) {
        Err(refusal) => {
            println!("refused, {}", refusal.number());
            return;
        }
        Ok(Explanation::BecomesSkip) => "it becomes a skip".to_string(),
        Ok(Explanation::NotRep) => "it is no loop".to_string(),
        Ok(Explanation::Regroup) => "it has to be regrouped first".to_string(),
        Ok(Explanation::NotAtomic) => "its rule is not atomic".to_string(),
        Ok(Explanation::NotSeq) => "it repeats no sequence".to_string(),
        Ok(Explanation::NotNegPred) => "its sequence does not begin with !".to_string(),
        Ok(Explanation::NotAny) => "its sequence does not end with ANY".to_string(),
        Ok(Explanation::Unknown { rule, at }) => format!("{} is a name of no rule", place(rule, at)),
        Ok(Explanation::Other { rule, at }) => format!("{} is no list", place(rule, at)),
        Ok(Explanation::MetAgain { rule, at, met, open }) => {
            let way: Vec<_> = open.iter().map(|rule| name(g, *rule as usize)).collect();
            format!("{} is a rule that is already being read: {}, on the way through {}", place(rule, at), name(g, met), way.join(" "))
        }
    };
    println!("{}, row {}: {words}", name(g, rule), row - first_row(g, rule));
}

fn main() {
    // comment = @{ (!line_end ~ ANY)* }  note = { (!line_end ~ ANY)* }  value = @{ (!mark ~ ANY)* }  tail = @{ (!ring ~ ANY)* }
    // rest = @{ (!bar ~ ANY)* }  digits = @{ '0'..'9'* }
    // line_end = { "\n" | "\r\n" }  mark = { ("<" | ">") | "&" }  ring = { ";" | back }  back = { "," | ring }
    let mut g = Builder::default();
    over(&mut g, "comment", ATOMIC, "line_end");
    over(&mut g, "note", NORMAL, "line_end");
    over(&mut g, "value", ATOMIC, "mark");
    over(&mut g, "tail", ATOMIC, "ring");
    over(&mut g, "rest", ATOMIC, "bar");
    g.rule("digits", ATOMIC).digits().one(REP, 0);
    g.rule("line_end", NORMAL).lit(STR, "\n").lit(STR, "\r\n").two(CHOICE);
    g.rule("mark", NORMAL).lit(STR, "<").lit(STR, ">").two(CHOICE).lit(STR, "&").two(CHOICE);
    g.rule("ring", NORMAL).lit(STR, ";").lit(IDENT, "back").two(CHOICE);
    g.rule("back", NORMAL).lit(STR, ",").lit(IDENT, "ring").two(CHOICE);
    let g = g.grammar();

    let mut explainer = Explainer::new();
    for rule in 0..g.rules.len() / 4 {
        let first = first_row(g, rule);
        for row in first..first + g.rules[4 * rule + 3] as usize {
            if g.rows[4 * row] == REP {
                explain(&mut explainer, g, rule, row);
            }
        }
    }
}
