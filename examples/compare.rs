// What changes when a venue's new order-entry grammar is switched on, in words.

#[path = "../rust/arvedun.rs"]
#[allow(dead_code)]
mod arvedun;
#[allow(dead_code)]
mod grammar;

use arvedun::{Comparer, Difference, Grammar, Side};
use grammar::*;

#[rustfmt::skip]
const KINDS: [&str; 19] = [
    "a string", "a string in any case", "a range", "a name", "PEEK", "PEEK", "&", "!", "~", "|", "?", "*", "+", "{n}", "{n,}", "{,n}", "{m,n}", "a skip",
    "PUSH",
];
const TYPES: [&str; 5] = ["normal", "silent", "atomic", "compound atomic", "non-atomic"];

/// The rules of both grammars.
trait Rules {
    fn cancel(&mut self) -> &mut Self;
    fn order(&mut self, ty: u32) -> &mut Self;
    fn id(&mut self) -> &mut Self;
    fn price(&mut self, point: &str) -> &mut Self;
}

impl Rules for Builder {
    fn cancel(&mut self) -> &mut Self {
        self.rule("cancel", NORMAL).lit(STR, "CXL ").lit(IDENT, "id").two(SEQ)
    }

    fn order(&mut self, ty: u32) -> &mut Self {
        self.rule("order", ty).lit(STR, "NEW ").lit(IDENT, "side").lit(IDENT, "price").two(SEQ).two(SEQ)
    }

    fn id(&mut self) -> &mut Self {
        self.rule("id", ATOMIC).row(RANGE, b'A' as u32, b'Z' as u32, 1).digits().two(CHOICE).one(REP_EXACT, 8)
    }

    fn price(&mut self, point: &str) -> &mut Self {
        self.rule("price", ATOMIC).digits().one(REP_ONCE, 0).lit(STR, point).digits().one(REP_EXACT, 2).two(SEQ).two(SEQ)
    }
}

/// A row of a rule: a literal's bytes, else the sign of its kind.
fn shown(left: Grammar, right: Grammar, side: Side, rule: usize, row: usize) -> String {
    let g = if side == Side::Left { left } else { right };
    if let Some(bytes) = arvedun::shown(left, right, side, rule, row) {
        return format!("\"{}\"", String::from_utf8_lossy(bytes));
    }
    if row == g.rules[4 * rule + 3] as usize {
        return "nothing more".to_string();
    }
    let first: usize = g.rules.chunks(4).take(rule).map(|r| r[3] as usize).sum();
    KINDS[g.rows[4 * (first + row)] as usize].to_string()
}

fn compare(comparer: &mut Comparer, left: Grammar, right: Grammar) {
    let differences: Vec<Difference> = match comparer.compare(left, right) {
        Ok(list) => list.collect(),
        Err((side, refusal)) => {
            println!("refused, {}: the {} grammar", refusal.number(), if side == Side::Left { "old" } else { "new" });
            return;
        }
    };
    println!("differences: {}", differences.len());
    for difference in differences {
        match difference {
            Difference::OnlyLeft { left: i } => println!("{}: only in the old grammar", name(left, i)),
            Difference::OtherType { left: i, right: j } => {
                let ty = |g: Grammar, rule: usize| TYPES[g.rules[4 * rule + 2] as usize];
                println!("{}: was {}, is {}", name(left, i), ty(left, i), ty(right, j));
            }
            Difference::OtherTree { left: i, right: j, row } => {
                let (was, is) = (shown(left, right, Side::Left, i, row), shown(left, right, Side::Right, j, row));
                println!("{}: row {row} was {was}, is {is}", name(left, i));
            }
            Difference::OnlyRight { right: j } => println!("{}: only in the new grammar", name(right, j)),
        }
    }
}

fn main() {
    // mass_cancel = { "CXL *" }  order = { "NEW " ~ side ~ price }  cancel = { "CXL " ~ id }  side = @{ "B" | "S" }
    // price = @{ '0'..'9'+ ~ "." ~ '0'..'9'{2} }  id = @{ ('A'..'Z' | '0'..'9'){8} }
    let mut old = Builder::default();
    old.rule("mass_cancel", NORMAL).lit(STR, "CXL *").order(NORMAL).cancel();
    old.rule("side", ATOMIC).lit(STR, "B").lit(STR, "S").two(CHOICE).price(".").id();
    // id as before, first  cancel = { ("CXL " ~ id)? }  side = @{ "B" | "S" | "SS" }  price with ","  order = _{ .. }  replace = { "RPL " ~ id }
    let mut new = Builder::default();
    new.id().cancel().one(OPT, 0).rule("side", ATOMIC).lit(STR, "B").lit(STR, "S").lit(STR, "SS").two(CHOICE).two(CHOICE);
    new.price(",").order(SILENT).rule("replace", NORMAL).lit(STR, "RPL ").lit(IDENT, "id").two(SEQ);
    let mut twice = Builder::default();
    twice.cancel().cancel();

    let mut comparer = Comparer::new();
    compare(&mut comparer, old.grammar(), new.grammar());
    compare(&mut comparer, old.grammar(), old.grammar());
    compare(&mut comparer, old.grammar(), twice.grammar());
}
