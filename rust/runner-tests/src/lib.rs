//! Starts the proved sheet runner, `target/bin/sheet_runner` at the project's root.

use std::fs::{self, File};
use std::io;
use std::path::{Path, PathBuf};
use std::process::{Command, Stdio};

/// The proved program, and a file of its own for what is put on its standard input.
pub struct Runner {
    program: PathBuf,
    input: PathBuf,
}

impl Runner {
    /// The program; `name` tells apart those that run at the same time.
    ///
    /// # Panics
    /// If the program was not built: `tools/build sheet_runner` at the project's root builds it.
    pub fn new(name: &str) -> Runner {
        let program = Path::new(env!("CARGO_MANIFEST_DIR")).join("../../target/bin/sheet_runner");
        assert!(
            program.is_file(),
            "target/bin/sheet_runner is missing: run `tools/build sheet_runner` at the project's root"
        );
        let file = format!("sheet-runner-{}-{name}", std::process::id());
        Runner {
            program,
            input: std::env::temp_dir().join(file),
        }
    }

    /// What the program writes for this input.
    pub fn print(&self, input: &[u8]) -> io::Result<Vec<u8>> {
        fs::write(&self.input, input)?;
        let done = Command::new(&self.program)
            .stdin(File::open(&self.input)?)
            .stderr(Stdio::inherit())
            .output()?;
        if !done.status.success() {
            return Err(io::Error::other(format!(
                "the program ended with {}",
                done.status
            )));
        }
        Ok(done.stdout)
    }
}

impl Drop for Runner {
    fn drop(&mut self) {
        // the file may never have been written
        let _ = fs::remove_file(&self.input);
    }
}
