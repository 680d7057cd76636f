//! Every script in examples/ of the repository comes to its text, and each line of a session to its answer.

use gakyhera::{Fault, Session, Text};
use std::path::{Path, PathBuf};
use std::{env, fs};

type Call = fn(&[u8]) -> Result<Text, Fault>;

/// Tries the scripts of a folder, and returns how many there are.
fn try_folder(folder: &str, call: Call) -> usize {
    let folder = Path::new(env!("CARGO_MANIFEST_DIR")).join("../../examples").join(folder);
    let mut tried = 0;
    for entry in fs::read_dir(folder).unwrap() {
        let path = entry.unwrap().path();
        if path.extension().is_some_and(|it| it == "json") {
            let right = fs::read(path.with_extension("out")).unwrap();
            let is_refused = right.starts_with(b"refused ") && right.iter().filter(|it| **it == b'\n').count() == 1;
            let made = call(&fs::read(&path).unwrap()).unwrap();
            assert_eq!(made, Text { text: right, is_refused }, "{}", path.display());
            tried += 1;
        }
    }
    tried
}

#[test]
fn fold_scripts_come_to_their_texts() {
    assert!(try_folder(".", gakyhera::fold) >= 10);
}

#[test]
fn turns_scripts_come_to_their_texts() {
    assert!(try_folder("turns", gakyhera::turns) >= 40);
}

#[test]
fn a_text_may_be_longer_than_its_script() {
    let script = |asked: &str| format!(r#"{{"resolvers":1,"rows":[],"ask":[{asked}]}}"#).into_bytes();
    let text_of = |script: &[u8]| String::from_utf8(gakyhera::fold(script).unwrap().text).unwrap();
    let (none, one) = (text_of(&script("")), text_of(&script(r#""k""#)));
    let line = one.strip_prefix(&none).unwrap();
    assert_eq!(text_of(&script(&vec![r#""k""#; 1_000].join(","))), none + &line.repeat(1_000));
}

#[test]
fn an_empty_script_is_refused() {
    let refused = Ok(Text { text: b"refused 70 NotJson\n".to_vec(), is_refused: true });
    assert_eq!(gakyhera::fold(b""), refused);
    assert_eq!(gakyhera::turns(b""), refused);
}

#[test]
fn threads_call_at_once() {
    std::thread::scope(|scope| {
        for _ in 0..4 {
            scope.spawn(|| try_folder("turns", gakyhera::turns));
        }
    });
}

/// The files of the lines of sessions, and of their answers: those that the file named by GAKYHERA_SESSIONS lists, and what
/// proxy_session is tried on.
fn session_files() -> Vec<(PathBuf, PathBuf)> {
    let program = Path::new(env!("CARGO_MANIFEST_DIR")).join("../../crates/proxy_session");
    let mut files = vec![(program.join("stdin"), program.join("stdout"))];
    if let Some(list) = env::var_os("GAKYHERA_SESSIONS") {
        for line in fs::read_to_string(list).unwrap().lines() {
            let (lines, answers) = line.split_once(' ').unwrap();
            files.push((lines.into(), answers.into()));
        }
    }
    files
}

/// Gives each line to the session, and returns the answers.
fn answers_of(session: &mut Session, lines: &[u8]) -> Vec<u8> {
    let lines = lines.strip_suffix(b"\n").unwrap_or(lines);
    lines.split(|it| *it == b'\n').flat_map(|line| session.line(line).unwrap()).collect()
}

#[test]
fn lines_of_sessions_have_their_answers() {
    for (lines, answers) in session_files() {
        let made = answers_of(&mut Session::new().unwrap(), &fs::read(&lines).unwrap());
        assert_eq!(made, fs::read(answers).unwrap(), "{}", lines.display());
    }
}

#[test]
fn an_answer_may_be_longer_than_its_line() {
    let mut session = Session::new().unwrap();
    session.line(br#"{"cluster":{"proxies":1,"resolvers":1,"window":100,"step":10}}"#).unwrap();
    let mut show = |asked: &str| session.line(format!(r#"{{"show":{{"proxy":0,"ask":[{asked}]}}}}"#).as_bytes()).unwrap();
    let (none, one, many) = (show(""), show(r#""k""#), show(&vec![r#""k""#; 1_000].join(",")));
    assert_eq!(many.len(), none.len() + 1_000 * (one.len() - none.len()));
    assert!(many.starts_with(&one[..one.len() - 1]));
}

#[test]
fn a_session_goes_to_another_thread() {
    let mut session = Session::new().unwrap();
    let cluster = br#"{"cluster":{"proxies":1,"resolvers":1,"window":100,"step":10}}"#;
    assert_eq!(session.line(cluster).unwrap(), b"cluster\n\n");
    let moved = std::thread::spawn(move || session.line(br#"{"sequence":{"proxy":0,"batch":[]}}"#).unwrap());
    assert_eq!(moved.join().unwrap(), b"sequence row 0 version 10\n\n");
}

#[test]
fn threads_have_their_own_sessions() {
    let lines = fs::read(&session_files()[0].0).unwrap();
    let answers = fs::read(&session_files()[0].1).unwrap();
    std::thread::scope(|scope| {
        for _ in 0..4 {
            scope.spawn(|| assert_eq!(answers_of(&mut Session::new().unwrap(), &lines), answers));
        }
    });
}
