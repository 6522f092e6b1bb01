// Two of the worked examples, called from Rust: W1, whose three strings become one, and W5's rule that its own skip list meets.

#[path = "../rust/arvedun.rs"]
#[allow(dead_code)]
mod arvedun;

fn call(name: &str, lent: &mut arvedun::Arvedun, rules: &[u32], rows: &[u32], text: &[u8]) {
    match lent.optimize(rules, rows, text) {
        Err(refusal) => println!("{name}: refused, {}", refusal.number()),
        Ok(table) => {
            println!("{name}: text {}", String::from_utf8_lossy(table.text));
            for r in table.rules.chunks(4) {
                println!("rule {} {} {} {}", r[0], r[1], r[2], r[3]);
            }
            for r in table.rows.chunks(4) {
                println!("row {} {} {} {}", r[0], r[1], r[2], r[3]);
            }
            let pairs: Vec<String> = table.report.iter().map(|(before, after)| format!("{before}>{after}")).collect();
            println!("report {}", pairs.join(" "));
        }
    }
}

fn main() {
    const STR: u32 = 0;
    const IDENT: u32 = 3;
    const NEG_PRED: u32 = 7;
    const SEQ: u32 = 8;
    const CHOICE: u32 = 9;
    const REP: u32 = 11;
    const NORMAL: u32 = 0;
    const ATOMIC: u32 = 2;
    let mut lent = arvedun::Arvedun::new();
    // r = @{ ("a" ~ "b") ~ "c" }
    let rules = [0, 1, ATOMIC, 5];
    let rows = [[STR, 1, 1, 1], [STR, 2, 1, 1], [SEQ, 0, 0, 3], [STR, 3, 1, 1], [SEQ, 0, 0, 5]].concat();
    call("W1", &mut lent, &rules, &rows, b"rabc");
    // r = @{ (!x ~ ANY)* }  x = { "a" | x }
    let rules = [0, 1, ATOMIC, 5, 1, 1, NORMAL, 3];
    let loops = [[IDENT, 1, 1, 1], [NEG_PRED, 0, 0, 2], [IDENT, 3, 3, 1], [SEQ, 0, 0, 4], [REP, 0, 0, 5]].concat();
    let x = [[STR, 2, 1, 1], [IDENT, 1, 1, 1], [CHOICE, 0, 0, 3]].concat();
    call("W5", &mut lent, &rules, &[loops, x].concat(), b"rxaANY");
}
