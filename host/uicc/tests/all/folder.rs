//! A folder of a test's own with the program in it, and what a run gives.

use std::io::Write;
use std::path::{Path, PathBuf};
use std::process::{Command, Output, Stdio};

/// A folder that goes when the test ends.
pub struct Folder {
    path: PathBuf,
}

/// What a run of the program gives.
pub struct Ran {
    pub status: i32,
    pub out: String,
    pub err: String,
}

impl Ran {
    fn of(run: Output) -> Ran {
        let text = |bytes: Vec<u8>| String::from_utf8(bytes).expect("it prints text");
        let status = run.status.code().expect("no signal ends it");
        Ran { status, out: text(run.stdout), err: text(run.stderr) }
    }
}

impl Folder {
    /// A new folder; the name is the test's.
    pub fn new(name: &str) -> Folder {
        Folder::at(Path::new(env!("CARGO_TARGET_TMPDIR")).join(format!("uicc-{name}")))
    }

    /// A new folder where every user can reach it.
    pub fn for_all(name: &str) -> Folder {
        let own = std::process::id();
        Folder::at(std::env::temp_dir().join(format!("uicc-{name}-{own}")))
    }

    fn at(path: PathBuf) -> Folder {
        let _ = std::fs::remove_dir_all(&path);
        std::fs::create_dir_all(&path).expect("the folder can be made");
        Folder { path }
    }

    /// The program in the folder, with nothing to read and nobody who reads.
    pub fn command(&self, arguments: &[&str]) -> Command {
        let mut command = Command::new(env!("CARGO_BIN_EXE_uicc"));
        command.args(arguments).current_dir(&self.path);
        command.stdin(Stdio::null()).stdout(Stdio::null()).stderr(Stdio::null());
        command
    }

    /// Runs the program in the folder.
    pub fn uicc(&self, arguments: &[&str]) -> Ran {
        self.fed(arguments, "")
    }

    /// Runs the program with a text on standard input.
    pub fn fed(&self, arguments: &[&str], text: &str) -> Ran {
        let mut command = self.command(arguments);
        command.stdin(Stdio::piped()).stdout(Stdio::piped()).stderr(Stdio::piped());
        let mut child = command.spawn().expect("the program starts");
        let mut input = child.stdin.take().expect("it has an input");
        // It may end without having read.
        let _ = input.write_all(text.as_bytes());
        drop(input);
        Ran::of(child.wait_with_output().expect("the program ends"))
    }

    /// Runs a line of the shell in the folder; `$UICC` is the program.
    pub fn shell(&self, line: &str) -> Ran {
        let mut shell = Command::new("sh");
        shell.args(["-c", line]).env("UICC", env!("CARGO_BIN_EXE_uicc"));
        Ran::of(shell.current_dir(&self.path).output().expect("the shell starts"))
    }

    /// Runs the program, which must succeed and be silent about errors.
    pub fn done(&self, arguments: &[&str]) -> String {
        let ran = self.uicc(arguments);
        assert_eq!((ran.status, ran.err.as_str()), (0, ""), "{arguments:?}");
        ran.out
    }

    /// Runs the program, which must refuse with this status.
    pub fn refused(&self, status: i32, arguments: &[&str]) -> String {
        let ran = self.uicc(arguments);
        assert_eq!((ran.status, ran.out.as_str()), (status, ""), "{arguments:?}: {}", ran.err);
        assert!(ran.err.starts_with("uicc: "), "{arguments:?}: {}", ran.err);
        ran.err
    }

    pub fn write(&self, name: &str, bytes: impl AsRef<[u8]>) {
        std::fs::write(self.path.join(name), bytes).expect("the file can be written");
    }

    pub fn read(&self, name: &str) -> Vec<u8> {
        std::fs::read(self.path.join(name)).expect("the file is there")
    }

    pub fn path(&self, name: &str) -> PathBuf {
        self.path.join(name)
    }

    /// The names in the folder.
    pub fn names(&self) -> Vec<String> {
        let entries = std::fs::read_dir(&self.path).expect("the folder is there");
        let name = |entry: std::io::Result<std::fs::DirEntry>| {
            entry.expect("an entry").file_name().to_string_lossy().into_owned()
        };
        let mut names: Vec<_> = entries.map(name).collect();
        names.sort();
        names
    }
}

impl Drop for Folder {
    fn drop(&mut self) {
        let _ = std::fs::remove_dir_all(&self.path);
    }
}
