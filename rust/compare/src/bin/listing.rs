//! Compares what the program `sheet` prints with the reference, on seeded random files of both forms.
//!
//!     listing PROGRAM [FILES [SEED]]

use reference::generate as make;
use reference::rng::Rng;
use reference::FORMS;
use std::io::Write;
use std::process::{exit, Command, Stdio};

fn printed(program: &str, file: &[u8]) -> Vec<u8> {
    let mut child = Command::new(program).stdin(Stdio::piped()).stdout(Stdio::piped()).spawn().expect("the program runs");
    let mut input = child.stdin.take().unwrap();
    // A program that stops reading early closes its input: what it printed is compared all the same.
    let _ = input.write_all(file);
    drop(input);
    child.wait_with_output().expect("the program ends").stdout
}

fn main() {
    let args: Vec<String> = std::env::args().skip(1).collect();
    let program = args.first().expect("listing PROGRAM [FILES [SEED]]");
    let files: u64 = args.get(1).map_or(1_000, |a| a.parse().expect("a number"));
    let seed: u64 = args.get(2).map_or(20_261_115, |a| a.parse().expect("a number"));
    let mut refused = 0;
    for number in 0..files {
        let mut rng = Rng::new(seed, number);
        let n = if number % 50 == 0 { 256 } else { rng.between(1, 40) as usize };
        let mut cells = make::any_table(&mut rng, n);
        let form = rng.pick(&FORMS);
        make::fit(form, &mut cells);
        let labels = make::labels(&mut rng, &mut cells);
        let mut file = make::file(form, &labels, &cells, make::allowance(&mut rng).min(65_535) as u16);
        match number % 10 {
            0 => make::damage_file(&mut rng, &mut file),
            1 => file = make::noise(&mut rng, 20_000),
            _ => {}
        }
        let expected = reference::listing(&file);
        let got = printed(program, &file);
        if got != expected {
            println!("DIFFERENCE: seed {seed} file {number}: {file:?}");
            println!("program:\n{}\nreference:\n{}", String::from_utf8_lossy(&got), String::from_utf8_lossy(&expected));
            exit(1);
        }
        refused += expected.starts_with(b"refused") as u64;
    }
    println!("{files} files, {refused} of them refused, seed {seed}: the listings are the same");
}
