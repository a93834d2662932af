//! Running a program on a text.

use std::env;
use std::fs::{self, File};
use std::io::{self, Read};
use std::path::{Path, PathBuf};
use std::process::{Command, Stdio};

/// The folder that this program is in, and the reference's `quotes` with it.
pub fn own_folder() -> io::Result<PathBuf> {
    Ok(env::current_exe()?.parent().map(Path::to_path_buf).unwrap_or_default())
}

/// A file with a text. It is removed in the end.
pub struct Input {
    path: PathBuf,
}

impl Input {
    pub fn write(text: &[u8]) -> io::Result<Input> {
        let path = own_folder()?.join("bench-cases.txt");
        fs::write(&path, text)?;
        Ok(Input { path })
    }
}

impl Drop for Input {
    fn drop(&mut self) {
        // What is left behind does no harm, and the next run writes over it.
        let _ = fs::remove_file(&self.path);
    }
}

/// Runs a program on an input. What it prints takes the place of what is in
/// `printed`; gives how many bytes that is.
pub fn run(program: &Path, input: &Input, printed: &mut Vec<u8>) -> usize {
    let stdin = File::open(&input.path).expect("the input was written");
    let mut child = Command::new(program)
        .stdin(stdin)
        .stdout(Stdio::piped())
        .spawn()
        .unwrap_or_else(|error| panic!("{}: {error}; make builds it", program.display()));
    printed.clear();
    let mut output = child.stdout.take().expect("the output is a pipe");
    output.read_to_end(printed).expect("the program prints");
    assert!(child.wait().expect("the program ends").success());
    printed.len()
}
