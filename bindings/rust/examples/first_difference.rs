//! Compares what an implementation printed of a turns script with the right text, and prints the first line that differs.
//!
//! `cargo run --example first_difference SCRIPT.json TEXT`

use std::error::Error;
use std::process::ExitCode;
use std::{env, fs};

fn main() -> Result<ExitCode, Box<dyn Error>> {
    let words: Vec<String> = env::args().collect();
    let [_, script, own] = words.as_slice() else {
        return Ok(ExitCode::from(2));
    };
    let right = String::from_utf8(gakyhera::turns(&fs::read(script)?)?.text)?;
    let own = fs::read_to_string(own)?;
    let (mut lines, mut own_lines) = (right.split_inclusive('\n'), own.split_inclusive('\n'));
    for number in 1.. {
        let (line, own_line) = (lines.next(), own_lines.next());
        if line != own_line {
            println!("line {number} must be: {}", line.unwrap_or("").trim_end());
            return Ok(ExitCode::from(1));
        }
        if line.is_none() {
            break;
        }
    }
    println!("the same");
    Ok(ExitCode::SUCCESS)
}
