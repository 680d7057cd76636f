//! Runs a toy proxy beside a session, and stops at the first answer that differs.
//!
//! `cargo run --example toy_proxy [late]`
//!
//! The toy keeps the version of each key's last write. With `late` it takes a write at the snapshot for a later one.

use gakyhera::{Session, SessionFault};
use std::process::ExitCode;

/// Gives a line to the session. Its answer is an error if it is not the toy's.
fn agree(session: &mut Session, asked: &mut u32, line: &str, own: &str) -> Result<(), String> {
    *asked += 1;
    let right = session.line(line.as_bytes()).map_err(|fault: SessionFault| fault.to_string())?;
    if right == format!("{own}\n\n").as_bytes() {
        return Ok(());
    }
    Err(format!("answer {asked} must be: {}", String::from_utf8_lossy(&right[..right.len() - 2])))
}

fn run(is_late: bool) -> Result<u32, String> {
    let mut session = Session::new().map_err(|fault| fault.to_string())?;
    let (mut asked, mut snapshot, mut draw, mut written) = (0, 0, 1, [-1; 4]);
    let mut give = |line: &str, own: &str| agree(&mut session, &mut asked, line, own);
    give(r#"{"cluster":{"proxies":1,"resolvers":1,"window":1000000,"step":10}}"#, "cluster")?;
    for row in 0..1000 {
        draw = draw * 75 % 65537;
        let (key, version) = (draw as usize % 4, 10 * row + 10);
        let range = [r#"[["a","b"]]"#, r#"[["b","c"]]"#, r#"[["c","d"]]"#, r#"[["d","e"]]"#][key];
        let ranges = format!(r#""reads":{range},"writes":{range}"#);
        let batch = format!(r#"{{"snapshot":{snapshot},{ranges},"mutations":[],"lock_aware":false}}"#);
        let sequence = format!(r#"{{"sequence":{{"proxy":0,"batch":[{batch}]}}}}"#);
        give(&sequence, &format!("sequence row {row} version {version}"))?;
        let conflicts = written[key] > snapshot - i32::from(is_late);
        let verdict = if conflicts { "conflict" } else { "committed" };
        let offer = format!(r#"{{"offer":{{"row":{row},"resolver":0}}}}"#);
        give(&offer, &format!("offer row {row} resolver 0 judged {verdict} unseen none"))?;
        let outcome = if conflicts { "conflict 1020".to_string() } else { format!("committed {version} 0") };
        give(r#"{"finish":{"proxy":0}}"#, &format!("finish proxy 0 version {version}\ntxn 0 {outcome}"))?;
        // after a conflict the client reads anew
        if conflicts {
            snapshot = version - 10;
        } else {
            written[key] = version;
        }
    }
    Ok(asked)
}

fn main() -> ExitCode {
    match run(std::env::args().nth(1).as_deref() == Some("late")) {
        Ok(asked) => {
            println!("{asked} answers are the same");
            ExitCode::SUCCESS
        }
        Err(words) => {
            println!("{words}");
            ExitCode::from(1)
        }
    }
}
