// The runner: see README.md for its subcommands.

mod damage;
mod examples;
mod exhaustive;
mod gen;
mod judge;
mod limits;
mod loops;
mod original;
mod print;
mod replay;
mod shrink;
mod sides;
mod table;

use gen::Rng;
use std::io::{Read, Write};
use table::*;

/// How much the original is asked to do for a case (copied nodes, roughly).
const PATIENCE: u128 = 1_000_000;
const MORE_PATIENCE: u128 = 2_000_000_000;

fn main() {
    // 4,096 nested rows, walked by calls, need more than a usual stack; the panics of the original are caught.
    std::panic::set_hook(Box::new(|info| {
        if std::env::var_os("SHOW_PANICS").is_some() {
            eprintln!("{info}");
        }
    }));
    let worker = std::thread::Builder::new().stack_size(1 << 30).spawn(real_main).expect("a thread");
    match worker.join() {
        Ok(code) => std::process::exit(code),
        Err(_) => {
            eprintln!("the harness itself panicked (set SHOW_PANICS to see where)");
            std::process::exit(3);
        }
    }
}

fn real_main() -> i32 {
    let args: Vec<String> = std::env::args().skip(1).collect();
    let number = |i: usize| args.get(i).and_then(|s| s.parse::<u64>().ok()).unwrap_or_else(|| usage());
    match args.first().map(|s| s.as_str()) {
        Some("check") => check(),
        Some("judge-vs-original") => random(number(1), number(2), &[]),
        Some("random") => random(number(1), number(2), &args[3..]),
        Some("large") => large(number(1), number(2), &args[3..]),
        Some("exhaustive") => exhaustive(&args[1..]),
        Some("compare") if args.len() > 1 => compare_file(&args[1], &args[2..]),
        Some("record") if args.len() == 5 => record(number(1), number(2), &args[3], &args[4]),
        Some("judge") => act_as_replay(),
        Some("sides") => match args.get(1).map(|s| s.as_str()) {
            Some("random") => sides::random(number(2), number(3), &args[4..]),
            Some("exhaustive") => sides::all(&args[2..]),
            Some("record") if args.len() == 6 => sides::record(number(2), number(3), &args[4], &args[5]),
            _ => usage(),
        },
        Some("loops") => match args.get(1).map(|s| s.as_str()) {
            Some("random") => loops::random(number(2), number(3), &args[4..]),
            Some("exhaustive") => loops::all(&args[2..]),
            Some("record") if args.len() == 6 => loops::record(number(2), number(3), &args[4], &args[5]),
            _ => usage(),
        },
        Some("show") if args.len() == 2 => show(&args[1]),
        _ => usage(),
    }
}

fn usage() -> ! {
    eprintln!("usage: run check | judge-vs-original SEED COUNT | random SEED COUNT [REPLAY..] | exhaustive [REPLAY..]");
    eprintln!("       run large SEED COUNT [REPLAY..] | compare CASES [REPLAY..] | record SEED COUNT STDIN_FILE STDOUT_FILE | judge | show CASES");
    eprintln!("       run sides random SEED COUNT [REPLAY..] | sides exhaustive [REPLAY..] | sides record SEED COUNT STDIN_FILE STDOUT_FILE");
    eprintln!("       run loops random SEED COUNT [REPLAY..] | loops exhaustive [REPLAY..] | loops record SEED COUNT STDIN_FILE STDOUT_FILE");
    std::process::exit(2)
}

/// The answer that a case must get, and whether the original gave it; an Err says how judge and original differ.
fn expected(case: &Case, patience: u128, fired: &mut [bool; 7]) -> Result<(Answer, bool), String> {
    let judged = judge::judge_and_note(case, fired);
    if judged.number >= 1 && judged.number <= 7 {
        return Ok((judged, false));
    }
    let table = decode(&case.rules, &case.rows, PUSH).expect("accepted");
    let theirs = match original::answer(&table, &case.text, patience) {
        Ok(None) => return Ok((judged, false)),
        Ok(Some(answer)) => answer,
        Err(message) => return Err(format!("{message}; the judge says\n{}", print::answer(&judged))),
    };
    if theirs != judged {
        return Err(format!("the original gives\n{}the judge gives\n{}", print::answer(&theirs), print::answer(&judged)));
    }
    Ok((theirs, true))
}

struct Run<'a> {
    replay: &'a [String],
    patience: u128,
    batch: Vec<(Case, Answer)>,
    batch_bytes: usize,
    cases: u64,
    by_original: u64,
    by_judge: u64,
    accepted_by_judge: u64,
    differences: u64,
    refusals: [u64; 9],
    fired: [u64; 7],
}

impl<'a> Run<'a> {
    fn new(replay: &'a [String], patience: u128) -> Self {
        Run {
            replay,
            patience,
            batch: Vec::new(),
            batch_bytes: 0,
            cases: 0,
            by_original: 0,
            by_judge: 0,
            accepted_by_judge: 0,
            differences: 0,
            refusals: [0; 9],
            fired: [0; 7],
        }
    }

    fn add(&mut self, case: Case) {
        if self.differences > 0 {
            return;
        }
        self.cases += 1;
        let mut fired = [false; 7];
        match expected(&case, self.patience, &mut fired) {
            Err(_) => self.judge_differs(&case),
            Ok((answer, from_original)) => {
                self.by_original += from_original as u64;
                self.by_judge += !from_original as u64;
                self.accepted_by_judge += (!from_original && answer.number == 0) as u64;
                self.refusals[answer.number as usize] += 1;
                if answer.number == 0 {
                    (0..7).for_each(|step| self.fired[step] += fired[step] as u64);
                }
                if !self.replay.is_empty() {
                    self.batch_bytes += case.bytes().len();
                    self.batch.push((case, answer));
                    if self.batch.len() >= 5000 || self.batch_bytes > 16_000_000 {
                        self.flush();
                    }
                }
            }
        }
    }

    fn judge_differs(&mut self, case: &Case) {
        self.differences += 1;
        let patience = self.patience;
        let small = shrink::shrink(case, 20_000, &mut |c| expected(c, patience, &mut [false; 7]).is_err());
        println!("original and judge differ on\n{}", print::case(&small));
        if let Err(how) = expected(&small, patience, &mut [false; 7]) {
            println!("{how}");
        }
    }

    fn flush(&mut self) {
        if self.batch.is_empty() || self.differences > 0 {
            return;
        }
        let batch = std::mem::take(&mut self.batch);
        self.batch_bytes = 0;
        let cases: Vec<Vec<u8>> = batch.iter().map(|(case, _)| case.bytes()).collect();
        let answers = replay::run(self.replay, &cases, Answer::read).unwrap_or_else(|message| {
            println!("{message}");
            Vec::new()
        });
        for (i, (case, wanted)) in batch.iter().enumerate() {
            if answers.get(i) != Some(wanted) {
                self.differences += 1;
                self.replay_differs(case);
                return;
            }
        }
    }

    /// None if replay is right.
    fn wrong(&self, case: &Case) -> Option<(Answer, Option<Answer>)> {
        let (wanted, _) = expected(case, self.patience, &mut [false; 7]).ok()?;
        let got = replay::run(self.replay, &[case.bytes()], Answer::read).ok().and_then(|answers| answers.into_iter().next());
        if got.as_ref() == Some(&wanted) {
            return None;
        }
        Some((wanted, got))
    }

    fn replay_differs(&mut self, case: &Case) {
        if self.wrong(case).is_none() {
            println!("replay differs on this case only among others (or ended early)\n{}", print::case(case));
            return;
        }
        let small = shrink::shrink(case, 2000, &mut |c| self.wrong(c).is_some());
        println!("replay differs on\n{}", print::case(&small));
        if let Some((wanted, got)) = self.wrong(&small) {
            println!("wanted\n{}", print::answer(&wanted));
            match got {
                Some(got) => println!("replay gives\n{}", print::answer(&got)),
                None => println!("replay gives no answer"),
            }
        }
    }

    fn end(mut self) -> i32 {
        self.flush();
        println!("accepted {}, refusals 1 to 8: {:?}", self.refusals[0], &self.refusals[1..]);
        println!("accepted tables changed by each step: {:?}", self.fired);
        let asked = if self.replay.is_empty() { "" } else { " (replay asked for all)" };
        println!(
            "cases {}, compared with the original {}, judged alone {} (of these accepted {}), differences {}{asked}",
            self.cases, self.by_original, self.by_judge, self.accepted_by_judge, self.differences
        );
        (self.differences > 0) as i32
    }
}

/// A random case: mostly small tables, a few at the limits, a third of them damaged.
fn random_case(rng: &mut Rng) -> Case {
    let mut case = if rng.below(250) == 0 {
        limits::large(rng)
    } else {
        let rules = gen::draft(rng);
        gen::lay(&rules, rng)
    };
    if rng.percent(3) {
        case.short = rng.pick(&[100, 100, 11, 99]);
    }
    if rng.percent(30) {
        damage::damage(&mut case, rng);
        while rng.percent(25) {
            damage::damage(&mut case, rng);
        }
    }
    case
}

/// A case that replay must be able to carry.
fn carried(case: &Case) -> bool {
    case.rules.len() <= 1040 && case.rows.len() <= 16400 && case.text.len() <= 65600
}

fn random(seed: u64, count: u64, replay: &[String]) -> i32 {
    let mut rng = Rng(seed);
    let mut run = Run::new(replay, PATIENCE);
    while run.cases < count && run.differences == 0 {
        let case = random_case(&mut rng);
        if carried(&case) {
            run.add(case);
        }
    }
    run.end()
}

/// Large tables only, with more patience for the original.
fn large(seed: u64, count: u64, replay: &[String]) -> i32 {
    let mut rng = Rng(seed);
    let mut run = Run::new(replay, 30 * PATIENCE);
    while run.cases < count && run.differences == 0 {
        let case = limits::large(&mut rng);
        if carried(&case) {
            run.add(case);
        }
    }
    run.end()
}

fn exhaustive(replay: &[String]) -> i32 {
    let mut run = Run::new(replay, PATIENCE);
    exhaustive::all(&mut |case| run.add(case));
    run.end()
}

fn read_cases(file: &str) -> Vec<Case> {
    let bytes = std::fs::read(file).unwrap_or_else(|e| {
        eprintln!("{file}: {e}");
        std::process::exit(2)
    });
    let mut left = &bytes[..];
    let mut cases = Vec::new();
    while let Some(case) = Case::read(&mut left) {
        cases.push(case);
    }
    cases
}

fn compare_file(file: &str, replay: &[String]) -> i32 {
    let mut run = Run::new(replay, MORE_PATIENCE);
    read_cases(file).into_iter().for_each(|case| run.add(case));
    run.end()
}

fn show(file: &str) -> i32 {
    for case in read_cases(file) {
        println!("case\n{}answer of the judge\n{}", print::case(&case), print::answer(&judge::judge(&case)));
    }
    0
}

/// Document 01's examples, against the judge and the original.
fn check() -> i32 {
    let mut wrong = 0;
    for example in examples::examples() {
        let case = Case::packed(&example.given);
        match expected(&case, MORE_PATIENCE, &mut [false; 7]) {
            Ok((answer, from_original)) => {
                let report = if example.label == "W1" { examples::W1_REPORT } else { answer.report };
                let good = answer == examples::wanted(&example, report);
                wrong += !good as i32;
                println!("{} {}{}", example.label, if good { "ok" } else { "DIFFERS" }, if from_original { "" } else { " (judge alone)" });
            }
            Err(how) => {
                wrong += 1;
                println!("{} {how}", example.label);
            }
        }
    }
    (wrong > 0) as i32
}

/// The sample: W1 to W12, W1 with each value of `short`, then small random cases: a twentieth of them for each refusal,
/// the rest accepted and changed by some step. Answers are the original's; refusals 1 to 7 the judge's.
fn record(seed: u64, count: u64, stdin_file: &str, stdout_file: &str) -> i32 {
    let mut cases: Vec<Case> = examples::examples().iter().map(|example| Case::packed(&example.given)).collect();
    for short in [1, 2, 3, 4, 5, 6, 7, 8, 9, 10, 11, 100, 101] {
        cases.push(Case { short, ..cases[0].clone() });
    }
    let mut rng = Rng(seed);
    let mut room = [count / 20; 9];
    room[0] = (count - 8 * room[8]).saturating_sub(cases.len() as u64);
    while room.iter().any(|left| *left > 0) {
        let case = random_case(&mut rng);
        let small = case.rules.len() + case.rows.len() < 400 && case.text.len() < 2000;
        if !small && !rng.percent(3) || !carried(&case) || case.bytes().len() > 70_000 {
            continue;
        }
        let mut fired = [false; 7];
        match expected(&case, PATIENCE, &mut fired) {
            Ok((answer, from_original)) => {
                let good = answer.number > 0 || from_original && fired.contains(&true) && answer.bytes().len() < 20_000;
                let left = &mut room[answer.number as usize];
                if good && *left > 0 {
                    *left -= 1;
                    cases.push(case);
                }
            }
            Err(how) => {
                println!("{how}");
                return 1;
            }
        }
    }
    let (mut stdin, mut stdout) = (Vec::new(), Vec::new());
    let mut numbers = [0u64; 9];
    let mut by_original = 0u64;
    for case in &cases {
        let (answer, from_original) = expected(case, MORE_PATIENCE, &mut [false; 7]).unwrap_or_else(|how| {
            println!("{how}");
            std::process::exit(1)
        });
        stdin.extend(case.bytes());
        stdout.extend(answer.bytes());
        numbers[answer.number as usize] += 1;
        by_original += from_original as u64;
    }
    for (file, bytes) in [(stdin_file, &stdin), (stdout_file, &stdout)] {
        if let Err(e) = std::fs::write(file, bytes) {
            eprintln!("{file}: {e}");
            return 2;
        }
    }
    println!("accepted {}, refusals 1 to 8: {:?}; bytes in {}, out {}", numbers[0], &numbers[1..], stdin.len(), stdout.len());
    println!("cases {}, answers by the original {}, judged alone {}", cases.len(), by_original, cases.len() as u64 - by_original);
    0
}

/// The judge in the place of replay.
fn act_as_replay() -> i32 {
    let mut bytes = Vec::new();
    std::io::stdin().read_to_end(&mut bytes).expect("standard input");
    let mut left = &bytes[..];
    let mut out = Vec::new();
    while let Some(case) = Case::read(&mut left) {
        // a tool's number is the fourth word by a thousand
        match case.short / 1000 * 1000 {
            sides::TOOL => {
                let Some(pair) = sides::Pair::read(case, &mut left) else { break };
                out.extend(sides::judge(&pair).bytes());
            }
            loops::TOOL => {
                let Some(asked) = loops::Asked::read(case, &mut left) else { break };
                out.extend(loops::judge(&asked).bytes());
            }
            _ => out.extend(judge::judge(&case).bytes()),
        }
    }
    std::io::stdout().write_all(&out).is_err() as i32
}
