//! commands build|frames|pp|list|interp|run MAIN [FILES]: commands of zkc, by the library. The input is standard input, the output
//! standard output. commands step FILE COUNT: where the machine stands after so many instructions.

use std::io::{Read, Write};
use std::process::exit;

fn main() {
    let words: Vec<String> = std::env::args().skip(1).collect();
    let Some((command, names)) = words.split_first() else { exit(2) };
    let Some(main) = names.first() else { exit(2) };
    if command == "step" {
        return step(main, names.get(1).and_then(|count| count.parse().ok()).unwrap_or(0));
    }
    let mut input = Vec::new();
    if command == "interp" || command == "run" {
        std::io::stdin().read_to_end(&mut input).expect("the input is read");
    }
    let texts: Vec<Vec<u8>> = names.iter().map(|name| std::fs::read(name).expect("the file is read")).collect();
    let files: Vec<(&str, &[u8])> = names.iter().map(String::as_str).zip(texts.iter().map(Vec::as_slice)).collect();
    let answer = match command.as_str() {
        "build" => zikorape::build(&files, main),
        "frames" => zikorape::frames(&files, main),
        "pp" => zikorape::preprocess(&files, main),
        "list" => zikorape::list(&files, main),
        "interp" => zikorape::interpret(&files, main, &input, 10_000_000),
        "run" => zikorape::run(&texts[0], main, &input, 10_000_000),
        _ => exit(2),
    };
    std::io::stdout().write_all(&answer.output).expect("the output is written");
    eprint!("{}", answer.message);
    exit(answer.status as i32);
}

fn step(name: &str, count: u64) {
    let file = std::fs::read(name).expect("the file is read");
    let machine = zikorape::step(&file, b"", count, zikorape::NEVER, 0, 0);
    println!("{} {:08x} {:?}", machine.steps, machine.pc, machine.outcome);
}
