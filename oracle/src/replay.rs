// Gives cases to the program `replay` through pipes and takes its answers; behind them a case that is cut off.

use std::io::{Read, Write};
use std::process::{Command, Stdio};

/// One answer for each case, as far as the program gave them; `read` takes an answer from the front.
pub fn run<A>(command: &[String], cases: &[Vec<u8>], read: fn(&mut &[u8]) -> Option<A>) -> Result<Vec<A>, String> {
    let mut child = Command::new(&command[0])
        .args(&command[1..])
        .stdin(Stdio::piped())
        .stdout(Stdio::piped())
        .spawn()
        .map_err(|e| format!("{}: {e}", command[0]))?;
    let mut stdin = child.stdin.take().unwrap();
    let mut input: Vec<u8> = cases.concat();
    if let Some(bytes) = cases.last() {
        // once more, but cut off: it must be ignored
        let cut = [bytes.len() - 1, 7, 16.min(bytes.len() - 1)][cases.len() % 3];
        input.extend(&bytes[..cut]);
    }
    let writer = std::thread::spawn(move || stdin.write_all(&input).is_ok());
    let mut output = Vec::new();
    child.stdout.take().unwrap().read_to_end(&mut output).map_err(|e| e.to_string())?;
    let written = writer.join().unwrap_or(false);
    let status = child.wait().map_err(|e| e.to_string())?;
    let mut left = &output[..];
    let mut answers = Vec::new();
    while answers.len() < cases.len() {
        match read(&mut left) {
            Some(answer) => answers.push(answer),
            None => break,
        }
    }
    if !written || !status.success() || !left.is_empty() {
        eprintln!("replay: {status}, input all taken: {written}, bytes too many: {}", left.len());
        if answers.len() == cases.len() {
            return Err("replay did not end well".to_string());
        }
    }
    Ok(answers)
}
