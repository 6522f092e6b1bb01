// Turns a .pest file into a case of replay's input, with pest_meta's own parser:  convert FILE.pest OUT_FILE
// Rules with a literal or a range that isn't ASCII are left out, and named.

#[allow(dead_code)]
mod table;

use pest_meta::ast::{Expr, Rule as PestRule, RuleType};
use pest_meta::parser;
use table::*;

fn main() {
    let args: Vec<String> = std::env::args().collect();
    let grammar = std::fs::read_to_string(&args[1]).expect("a grammar");
    let pairs = parser::parse(parser::Rule::grammar_rules, &grammar).unwrap_or_else(|e| panic!("{e}"));
    let rules = parser::consume_rules(pairs).unwrap_or_else(|errors| panic!("{}", errors[0]));
    let mut table = Vec::new();
    for rule in &rules {
        match to_tree(&rule.expr) {
            Some(tree) if rule.name.is_ascii() => table.push(Rule { name: rule.name.clone().into_bytes(), ty: type_of(rule), tree }),
            _ => println!("rule {} left out: not ASCII", rule.name),
        }
    }
    let rows: usize = table.iter().map(|rule| rule.tree.rows()).sum();
    std::fs::write(&args[2], Case::packed(&table).bytes()).expect("the case file");
    println!("{} rules, {rows} rows", table.len());
}

fn type_of(rule: &PestRule) -> u32 {
    match rule.ty {
        RuleType::Normal => NORMAL,
        RuleType::Silent => SILENT,
        RuleType::Atomic => ATOMIC,
        RuleType::CompoundAtomic => COMPOUND,
        RuleType::NonAtomic => NON_ATOMIC,
    }
}

fn to_tree(e: &Expr) -> Option<Tree<Text>> {
    let literal = |kind, s: &str| if s.is_ascii() { Some(Tree::Lit(kind, s.as_bytes().to_vec())) } else { None };
    let one = |kind, x, y, e| Some(Tree::One(kind, x, y, Box::new(to_tree(e)?)));
    let two = |kind, l, r| Some(Tree::Two(kind, Box::new(to_tree(l)?), Box::new(to_tree(r)?)));
    match e {
        Expr::Str(s) => literal(STR, s),
        Expr::Insens(s) => literal(INSENS, s),
        Expr::Ident(s) => literal(IDENT, s),
        Expr::Range(a, b) => {
            let (a, b) = (a.chars().next()? as u32, b.chars().next()? as u32);
            if a > 127 || b > 127 {
                return None;
            }
            Some(Tree::Fixed(RANGE, a, b))
        }
        Expr::PeekSlice(a, None) => Some(Tree::Fixed(PEEK, *a as u32, 0)),
        Expr::PeekSlice(a, Some(b)) => Some(Tree::Fixed(PEEK_END, *a as u32, *b as u32)),
        Expr::PosPred(e) => one(POS_PRED, 0, 0, e),
        Expr::NegPred(e) => one(NEG_PRED, 0, 0, e),
        Expr::Seq(l, r) => two(SEQ, l, r),
        Expr::Choice(l, r) => two(CHOICE, l, r),
        Expr::Opt(e) => one(OPT, 0, 0, e),
        Expr::Rep(e) => one(REP, 0, 0, e),
        Expr::RepOnce(e) => one(REP_ONCE, 0, 0, e),
        Expr::RepExact(e, n) => one(REP_EXACT, *n, 0, e),
        Expr::RepMin(e, n) => one(REP_MIN, *n, 0, e),
        Expr::RepMax(e, n) => one(REP_MAX, *n, 0, e),
        Expr::RepMinMax(e, m, n) => one(REP_MIN_MAX, *m, *n, e),
        Expr::Skip(_) => None, // no grammar text gives one
        Expr::Push(e) => one(PUSH, 0, 0, e),
    }
}
