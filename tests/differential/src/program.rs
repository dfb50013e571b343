//! A program of the project, run in a folder of its own with a book or without, on bytes as its standard input.
use std::io::Write;
use std::path::{Path, PathBuf};
use std::process::{Command, Stdio};

pub fn hex(bytes: &[u8]) -> String {
    bytes.iter().map(|b| format!("{b:02x}")).collect()
}

pub struct Program {
    path: PathBuf,
    folder: PathBuf,
}

impl Program {
    /// The program at this path; its folder is made in the one for temporary files and is gone with the value.
    pub fn new(path: &str) -> Self {
        let path = Path::new(path).canonicalize().unwrap_or_else(|e| panic!("{path}: {e}"));
        let name = path.file_name().expect("a program's name").to_string_lossy().into_owned();
        let folder = std::env::temp_dir().join(format!("{name}-{}", std::process::id()));
        std::fs::create_dir_all(&folder).expect("a folder to work in");
        Program { path, folder }
    }

    /// What it writes; a book of None is missing. It must end well.
    pub fn run(&self, book: Option<&[u8]>, stream: &[u8]) -> Vec<u8> {
        let at = self.folder.join("book.bin");
        match book {
            Some(bytes) => std::fs::write(&at, bytes).expect("a book to write"),
            None => drop(std::fs::remove_file(&at)),
        }
        let mut child = Command::new(&self.path)
            .current_dir(&self.folder)
            .stdin(Stdio::piped())
            .stdout(Stdio::piped())
            .stderr(Stdio::null())
            .spawn()
            .expect("a program to run");
        let mut input = child.stdin.take().expect("its standard input");
        std::thread::scope(|scope| {
            // a program may end before it has read all: a refused start does
            scope.spawn(move || drop(input.write_all(stream)));
            let done = child.wait_with_output().expect("its end");
            assert!(done.status.success(), "{} ended with {}", self.path.display(), done.status);
            done.stdout
        })
    }
}

impl Drop for Program {
    fn drop(&mut self) {
        drop(std::fs::remove_dir_all(&self.folder));
    }
}
