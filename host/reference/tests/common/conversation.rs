//! A program that is fed piece by piece, its input held open while its answers
//! are waited for.

use std::io::{BufRead, BufReader, Write};
use std::path::Path;
use std::process::{Child, ChildStdin, Command, Stdio};
use std::sync::mpsc::{self, Receiver, RecvTimeoutError};
use std::thread;
use std::time::Duration;

/// The longest that an answer may take.
const PATIENCE: Duration = Duration::from_secs(10);
/// How long a program is watched that should say nothing.
const SILENCE: Duration = Duration::from_millis(200);

pub struct Conversation {
    program: Child,
    input: Option<ChildStdin>,
    answers: Receiver<Vec<u8>>,
}

impl Conversation {
    pub fn with(program: &Path) -> Self {
        let mut program = Command::new(program)
            .stdin(Stdio::piped())
            .stdout(Stdio::piped())
            .spawn()
            .expect("the program starts");
        let input = program.stdin.take();
        let mut output = BufReader::new(program.stdout.take().expect("standard output is piped"));
        let (sender, answers) = mpsc::channel();
        // Reads on its own, since a read has no time limit.
        thread::spawn(move || loop {
            let mut answer = Vec::new();
            let length = output.read_until(b'\n', &mut answer).expect("a pipe can be read");
            if length == 0 || sender.send(answer).is_err() {
                break;
            }
        });
        Conversation { program, input, answers }
    }

    /// Feeds the program some characters and leaves its input open.
    pub fn say(&mut self, text: &[u8]) {
        let input = self.input.as_mut().expect("the input is open");
        input.write_all(text).expect("the program reads its input");
    }

    /// Ends the program's input.
    pub fn close(&mut self) {
        self.input = None;
    }

    /// The next printed line with its newline. Fails if none comes in time.
    pub fn answer(&self) -> Vec<u8> {
        self.answers.recv_timeout(PATIENCE).expect("an answer comes before more input")
    }

    /// Asserts that nothing is printed for now.
    pub fn assert_silent(&self) {
        assert_eq!(self.answers.recv_timeout(SILENCE), Err(RecvTimeoutError::Timeout));
    }

    /// Asserts that nothing more is printed and that the program ends well.
    pub fn assert_ended(mut self) {
        let rest = self.answers.recv_timeout(PATIENCE);
        assert_eq!(rest, Err(RecvTimeoutError::Disconnected));
        let status = self.program.wait().expect("the program ends");
        assert!(status.success(), "the program ended with {status}");
    }
}

impl Drop for Conversation {
    /// Leaves no program behind where an assertion failed.
    fn drop(&mut self) {
        // One that has ended can't be killed, and need not be.
        let _ = self.program.kill();
        let _ = self.program.wait();
    }
}
