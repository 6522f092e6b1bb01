// The damager: for each refusal, ways to change a good table so that it applies, or nearly does.

use crate::gen::*;
use crate::table::*;

const ODD: [u32; 14] = [0, 1, 2, 3, 4, 5, 18, 19, 20, 127, 128, 0x7FFF_FFFF, 0x8000_0000, u32::MAX];

pub fn damage(case: &mut Case, rng: &mut Rng) {
    match rng.below(12) {
        0 => case.short = rng.pick(&[1, 2, 3, 4, 5, 6, 7, 8, 9, 10, 11, 100, 101, u32::MAX]),
        1 => counts(case, rng),
        2 | 3 => shape(case, rng),
        4 | 5 => spans(case, rng),
        6 => names(case, rng),
        7 => zero_counts(case, rng),
        8 | 9 => loops(case, rng),
        10 => large(case, rng),
        _ => any_word(case, rng),
    }
}

fn row_of(case: &Case, rng: &mut Rng, kinds: &[u32]) -> Option<usize> {
    let found: Vec<usize> = (0..case.rows.len() / 4).filter(|i| kinds.is_empty() || kinds.contains(&case.rows[4 * i])).collect();
    if found.is_empty() {
        return None;
    }
    Some(4 * rng.pick(&found))
}

fn rule_of(case: &Case, rng: &mut Rng) -> Option<usize> {
    match case.rules.len() / 4 {
        0 => None,
        n => Some(4 * rng.below(n)),
    }
}

/// Refusal 2: a word count that isn't a multiple of four, or above full size.
fn counts(case: &mut Case, rng: &mut Rng) {
    let n = 1 + rng.below(3);
    match rng.below(7) {
        0 => case.rules.extend(vec![0; n]),
        1 => case.rows.extend(vec![0; n]),
        2 => case.rules.truncate(case.rules.len().saturating_sub(n)),
        3 => case.rows.truncate(case.rows.len().saturating_sub(n)),
        4 => case.rules.resize(1024 + rng.below(17), 0),
        5 => case.rows.resize(16384 + rng.below(17), 0),
        _ => case.text.resize(65536 + rng.below(65), 0),
    }
}

/// Refusal 3.
fn shape(case: &mut Case, rng: &mut Rng) {
    match rng.below(13) {
        0 => {
            if let Some(i) = rule_of(case, rng) {
                case.rules[i + 2] = rng.pick(&[5, 6, 255, 0x8000_0000, u32::MAX]);
            }
        }
        1 => {
            if let Some(i) = row_of(case, rng, &[]) {
                case.rows[i] = rng.pick(&[18, 19, 20, 21, 255, 256, u32::MAX]);
            }
        }
        2 => {
            if let Some(i) = row_of(case, rng, &[4, 6, 7, 8, 9, 10, 11, 12, 13, 14, 15, 17, 18]) {
                case.rows[i + 2] = rng.pick(&[1, 2, u32::MAX]);
            }
        }
        3 => {
            if let Some(i) = row_of(case, rng, &[6, 7, 8, 9, 10, 11, 12, 18]) {
                case.rows[i + 1] = rng.pick(&[1, 2, u32::MAX]);
            }
        }
        4 => {
            if let Some(i) = row_of(case, rng, &[]) {
                let old = case.rows[i + 3];
                case.rows[i + 3] = rng.pick(&[0, old.wrapping_add(1), old.wrapping_sub(1), old.wrapping_add(4096), u32::MAX, 1 << 30]);
            }
        }
        5 => {
            if let Some(i) = row_of(case, rng, &[17]) {
                if i >= 4 {
                    case.rows[i - 4] = rng.pick(&[1, 2, 3]);
                }
            }
        }
        6 => {
            if let Some(i) = row_of(case, rng, &[17]) {
                case.rows[i + 1] = rng.pick(&[0, 1, 2, 4096, u32::MAX]);
            }
        }
        7 => {
            if let Some(i) = rule_of(case, rng) {
                let old = case.rules[i + 3];
                case.rules[i + 3] = rng.pick(&[0, old.wrapping_add(1), old.wrapping_sub(1), u32::MAX, 1 << 30]);
            }
        }
        8 => {
            // a row moved from one rule to the next
            if case.rules.len() >= 8 {
                let i = 4 * rng.below(case.rules.len() / 4 - 1);
                let step = rng.pick(&[1, u32::MAX]);
                case.rules[i + 3] = case.rules[i + 3].wrapping_add(step);
                case.rules[i + 7] = case.rules[i + 7].wrapping_sub(step);
            }
        }
        9 => {
            if let Some(i) = rule_of(case, rng) {
                case.rules.drain(i..i + 4);
            }
        }
        10 => {
            if let Some(i) = row_of(case, rng, &[]) {
                case.rows.drain(i..i + 4);
            }
        }
        11 => {
            // two rows that follow each other change places
            if case.rows.len() >= 8 {
                let i = 4 * rng.below(case.rows.len() / 4 - 1);
                for k in 0..4 {
                    case.rows.swap(i + k, i + 4 + k);
                }
            }
        }
        _ => {
            // a rule without rows
            let i = 4 * rng.below(case.rules.len() / 4 + 1);
            for (k, word) in [0, 0, 0, 0].into_iter().enumerate() {
                case.rules.insert((i + k).min(case.rules.len()), word);
            }
        }
    }
}

/// Refusal 4.
fn spans(case: &mut Case, rng: &mut Rng) {
    let length = case.text.len() as u32;
    match rng.below(8) {
        0 | 1 => {
            if let Some(i) = row_of(case, rng, &[0, 1, 3]) {
                span(&mut case.rows[i + 1..i + 3], length, rng);
            }
        }
        2 | 3 => {
            if let Some(i) = rule_of(case, rng) {
                span(&mut case.rules[i..i + 2], length, rng);
            }
        }
        4 | 5 => {
            if length > 0 {
                let i = rng.below(length as usize);
                case.text[i] = rng.pick(&[127, 128, 255, 200]);
            }
        }
        6 => {
            let n = rng.below(3);
            case.text.truncate(case.text.len().saturating_sub(n));
        }
        _ => {
            if let Some(i) = row_of(case, rng, &[2]) {
                case.rows[i + 1 + rng.below(2)] = rng.pick(&[0, 127, 128, 255, 256 + 97, u32::MAX]);
            }
        }
    }
}

fn span(words: &mut [u32], length: u32, rng: &mut Rng) {
    let (offset, n) = rng.pick(&[
        (length, 0),
        (length.wrapping_add(1), 0),
        (length, 1),
        (0, length),
        (0, length.wrapping_add(1)),
        (u32::MAX, 1),
        (u32::MAX, 2),
        (1, u32::MAX),
        (0x8000_0000, 0x8000_0000),
        (u32::MAX, 0),
        (length.wrapping_sub(1), 1),
        (words[0], words[1].wrapping_add(1)),
    ]);
    words[0] = offset;
    words[1] = n;
}

/// Refusal 5: another rule's name (the same bytes elsewhere), or a reserved name, or nearly one.
fn names(case: &mut Case, rng: &mut Rng) {
    let i = match rule_of(case, rng) {
        Some(i) => i,
        None => return,
    };
    let offset = case.text.len() as u32;
    let name = match rng.below(3) {
        0 => rng.pick(&["ANY", "DROP", "POP"]).as_bytes().to_vec(),
        1 => rng.pick(&["ANYY", "AN", "DRO", "DROPP", "PO", "POPP", "any", "PEEK"]).as_bytes().to_vec(),
        _ => {
            let j = 4 * rng.below(case.rules.len() / 4);
            let (from, to) = (case.rules[j] as usize, case.rules[j] as usize + case.rules[j + 1] as usize);
            case.text.get(from..to).unwrap_or(b"r").to_vec()
        }
    };
    case.rules[i] = offset;
    case.rules[i + 1] = name.len() as u32;
    case.text.extend(name);
}

/// Refusal 6, and counts of 0 that are none.
fn zero_counts(case: &mut Case, rng: &mut Rng) {
    if let Some(i) = row_of(case, rng, &[13, 14, 15, 16]) {
        case.rows[i + 1 + rng.below(2)] = 0;
        return;
    }
    if let Some(i) = row_of(case, rng, &[6, 7, 10, 11, 12, 18]) {
        case.rows[i] = rng.pick(&[13, 15, 16, 14]);
    }
}

/// Refusal 7: loops over rules that are lists of each other, or nearly.
fn loops(case: &mut Case, rng: &mut Rng) {
    if rng.percent(30) {
        // turn an Ident's name into another rule's
        if let (Some(i), Some(j)) = (row_of(case, rng, &[3]), rule_of(case, rng)) {
            case.rows[i + 1] = case.rules[j];
            case.rows[i + 2] = case.rules[j + 1];
        }
        return;
    }
    let names = ["L0", "L1", "L2"];
    let mut rules = Vec::new();
    let e = choice(s("a"), id("L0"));
    rules.push(rule("L", rng.pick(&[ATOMIC, ATOMIC, ATOMIC, NORMAL, COMPOUND]), skip_loop(rng.pick(&[id("L0"), e]))));
    for name in names {
        let to = rng.pick(&names);
        let tree = rng.pick(&[
            id(to),
            choice(s("a"), id(to)),
            choice(id(to), s("a")),
            s("b"),
            choice(Tree::Fixed(RANGE, 97, 98), id(to)),
            choice(choice(s("a"), s("b")), id(to)),
            choice(s("a"), choice(id("L"), id(to))),
            choice(id("unknown"), id(to)),
        ]);
        rules.push(rule(name, rng.pick(&[NORMAL, ATOMIC]), tree));
    }
    append(case, &rules);
}

/// Puts further rules behind a table.
fn append(case: &mut Case, rules: &[Rule<Text>]) {
    let text = &mut case.text;
    let (rule_words, row_words) = words(rules, &mut |l: &Text| {
        let offset = text.len() as u32;
        text.extend_from_slice(l);
        (offset, l.len() as u32)
    });
    case.rules.extend(rule_words);
    case.rows.extend(row_words);
}

/// Refusal 8: large counts, long spans over little text.
fn large(case: &mut Case, rng: &mut Rng) {
    if rng.percent(50) {
        if let Some(i) = row_of(case, rng, &[13, 14, 15, 16]) {
            let numbers = [1000, 2047, 2048, 2049, 4096, 65536, 0x8000_0000, u32::MAX - 2, u32::MAX - 1, u32::MAX];
            let n = rng.pick(&numbers);
            case.rows[i + 1] = n;
            if case.rows[i] == 16 {
                case.rows[i + 2] = rng.pick(&numbers);
            }
            return;
        }
    }
    let length = 1 + rng.below(40_000);
    let n = 65536 / length + rng.below(2);
    let offset = case.text.len();
    if rng.percent(90) || n < 2 || n > 500 {
        return;
    }
    case.text.extend(vec![b'a'; length]);
    let literal = Tree::Lit(STR, (offset as u32, length as u32));
    let tree = (0..n).map(|_| literal.clone()).reduce(|r, l| Tree::Two(SEQ, Box::new(l), Box::new(r))).unwrap();
    let (rule_words, row_words) = words(&[Rule { name: (offset as u32, 9.min(length as u32)), ty: ATOMIC, tree }], &mut |span| *span);
    case.rules.extend(rule_words);
    case.rows.extend(row_words);
}

fn any_word(case: &mut Case, rng: &mut Rng) {
    let n = case.rules.len() + case.rows.len();
    if n == 0 {
        return;
    }
    let i = rng.below(n);
    let odd = rng.pick(&ODD);
    let length = case.rules.len();
    let word = if i < length { &mut case.rules[i] } else { &mut case.rows[i - length] };
    *word = match rng.below(4) {
        0 => odd,
        1 => word.wrapping_add(1),
        2 => word.wrapping_sub(1),
        _ => rng.next() as u32,
    };
}
