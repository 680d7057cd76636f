//! Runs fold and turns scripts and sessions in memory, by libgakyhera. docs/FORMATS.md of Gakyhera has the forms.
//!
//! ```no_run
//! let answer = gakyhera::turns(b"{}").unwrap();
//! assert!(answer.is_refused);
//! assert_eq!(answer.text, b"refused 71 BadShape\n");
//! let mut session = gakyhera::Session::new().unwrap();
//! assert_eq!(session.line(b"{}").unwrap(), b"refused 71 BadShape\n\n");
//! ```
//!
//! Threads may call at the same time.

use std::ffi::{c_int, c_void};
use std::fmt;
use std::ptr::null_mut;

extern "C" {
    fn gakyhera_fold(script: *const u8, length: usize, out: *mut u8, room: usize, made: *mut usize) -> c_int;
    fn gakyhera_turns(script: *const u8, length: usize, out: *mut u8, room: usize, made: *mut usize) -> c_int;
    fn gakyhera_session_new(session: *mut Handle) -> c_int;
    fn gakyhera_session_line(
        session: *mut Handle,
        line: *const u8,
        length: usize,
        out: *mut u8,
        room: usize,
        made: *mut usize,
    ) -> c_int;
    fn gakyhera_session_answer(session: *mut Handle, out: *mut u8, room: usize, made: *mut usize) -> c_int;
    fn gakyhera_session_free(session: *mut Handle);
}

// What a call returns, as in gakyhera.h.
const DONE: c_int = 0;
const REFUSED: c_int = 1;
const TOO_LONG: c_int = 3;
const OUT_OF_MEMORY: c_int = 4;
const TOO_SMALL: c_int = 6;

type Call = unsafe extern "C" fn(*const u8, usize, *mut u8, usize, *mut usize) -> c_int;

/// The text of a script.
#[derive(Clone, Debug, PartialEq, Eq)]
pub struct Text {
    /// The whole text; of a wrong script the line `refused NUMBER NAME`.
    pub text: Vec<u8>,
    /// Whether the script is wrong.
    pub is_refused: bool,
}

/// Why there is no text.
#[derive(Clone, Copy, Debug, PartialEq, Eq)]
pub enum Fault {
    /// An allocation failed.
    OutOfMemory,
    /// The script is longer than 4,294,963,200 bytes.
    TooLong,
}

impl fmt::Display for Fault {
    fn fmt(&self, to: &mut fmt::Formatter<'_>) -> fmt::Result {
        to.write_str(match self {
            Fault::OutOfMemory => "out of memory",
            Fault::TooLong => "the script is longer than 4,294,963,200 bytes",
        })
    }
}

impl std::error::Error for Fault {}

/// Returns the text of a fold script.
pub fn fold(script: &[u8]) -> Result<Text, Fault> {
    text_of(gakyhera_fold, script)
}

/// Returns the text of a turns script.
pub fn turns(script: &[u8]) -> Result<Text, Fault> {
    text_of(gakyhera_turns, script)
}

fn text_of(call: Call, script: &[u8]) -> Result<Text, Fault> {
    let mut text = vec![0; script.len() + 1024];
    loop {
        let mut made = 0;
        // SAFETY: the pointers of slices are never null, each goes with its slice's length, and no two of them overlap.
        let status = unsafe { call(script.as_ptr(), script.len(), text.as_mut_ptr(), text.len(), &mut made) };
        match status {
            DONE | REFUSED => {
                text.truncate(made);
                return Ok(Text { text, is_refused: status == REFUSED });
            }
            TOO_SMALL => text.resize(made, 0),
            TOO_LONG => return Err(Fault::TooLong),
            _ => return Err(Fault::OutOfMemory),
        }
    }
}

// A session in the library's form, which is not copied.
#[repr(C)]
struct Handle {
    opaque: *mut c_void,
}

/// A session with a cluster, which answers each line as `proxy_session` does.
pub struct Session {
    handle: Handle,
}

/// Why a line of a session has no answer.
#[derive(Clone, Copy, Debug, PartialEq, Eq)]
pub enum SessionFault {
    /// An allocation failed. The session is unchanged.
    OutOfMemory,
    /// The line was carried out, but an allocation failed for its long answer.
    AnswerLost,
}

impl fmt::Display for SessionFault {
    fn fmt(&self, to: &mut fmt::Formatter<'_>) -> fmt::Result {
        to.write_str(match self {
            SessionFault::OutOfMemory => "out of memory",
            SessionFault::AnswerLost => "the line is carried out, but its answer is lost",
        })
    }
}

impl std::error::Error for SessionFault {}

// SAFETY: the library allows a session to go to another thread, if one thread at a time uses it.
unsafe impl Send for Session {}

impl Session {
    /// Begins a session without a cluster. Fails only with `OutOfMemory`.
    pub fn new() -> Result<Session, SessionFault> {
        let mut session = Session { handle: Handle { opaque: null_mut() } };
        // SAFETY: the handle holds no session yet.
        match unsafe { gakyhera_session_new(&mut session.handle) } {
            DONE => Ok(session),
            _ => Err(SessionFault::OutOfMemory),
        }
    }

    /// Carries out a line, and returns its answer, which ends with an empty line.
    pub fn line(&mut self, line: &[u8]) -> Result<Vec<u8>, SessionFault> {
        let (mut out, mut made) = (vec![0; 4096], 0);
        // SAFETY: the handle holds a session, the pointers of slices are never null, and no two overlap.
        let status = unsafe {
            gakyhera_session_line(
                &mut self.handle,
                line.as_ptr(),
                line.len(),
                out.as_mut_ptr(),
                out.len(),
                &mut made,
            )
        };
        match status {
            DONE => {}
            TOO_SMALL => {
                out.resize(made, 0);
                // SAFETY: as above.
                unsafe { gakyhera_session_answer(&mut self.handle, out.as_mut_ptr(), out.len(), &mut made) };
            }
            OUT_OF_MEMORY => return Err(SessionFault::OutOfMemory),
            _ => return Err(SessionFault::AnswerLost),
        }
        out.truncate(made);
        Ok(out)
    }
}

impl Drop for Session {
    fn drop(&mut self) {
        // SAFETY: the handle holds a session, which nothing uses afterwards.
        unsafe { gakyhera_session_free(&mut self.handle) }
    }
}
