//! The proved program, run as a process on files of its own folder.

use std::env;
use std::fs;
use std::path::{Path, PathBuf};
use std::process::{self, Command};
use std::sync::atomic::{AtomicUsize, Ordering};

const PROGRAM: &str = "../../target/bin/checker";

/// Set where the program has to be there.
const DUE: &str = "GASPLAN_PROGRAM_DUE";

/// The program, and the folder that it is run in.
pub struct Program {
    path: PathBuf,
    folder: PathBuf,
}

impl Program {
    /// The program, if it has been built.
    ///
    /// # Panics
    /// If it is due and is not there.
    pub fn find() -> Option<Program> {
        static FOUND: AtomicUsize = AtomicUsize::new(0);
        let path = Path::new(env!("CARGO_MANIFEST_DIR")).join(PROGRAM);
        if !path.is_file() {
            assert!(env::var_os(DUE).is_none(), "{} is missing", path.display());
            return None;
        }
        let number = FOUND.fetch_add(1, Ordering::Relaxed);
        let folder = env::temp_dir().join(format!("gasplan-{}-{number}", process::id()));
        fs::create_dir_all(&folder).expect("a folder for the program");
        Some(Program { path, folder })
    }

    /// What the program prints on these files, without the line's end.
    pub fn line(&self, case: Option<&[u8]>, plan: Option<&[u8]>) -> String {
        self.put("case.bin", case);
        self.put("plan.bin", plan);
        let run = Command::new(&self.path).current_dir(&self.folder).output();
        let run = run.expect("the program runs");
        assert!(run.status.success() && run.stderr.is_empty(), "{run:?}");
        let text = String::from_utf8(run.stdout).expect("a line of text");
        let line = text.strip_suffix('\n').expect("a whole line");
        assert!(!line.contains('\n'), "more than one line: {text}");
        line.to_string()
    }

    fn put(&self, name: &str, contents: Option<&[u8]>) {
        let path = self.folder.join(name);
        match contents {
            Some(bytes) => fs::write(path, bytes).expect("a file to judge"),
            None if path.exists() => fs::remove_file(path).expect("a file that goes"),
            None => {}
        }
    }
}

impl Drop for Program {
    fn drop(&mut self) {
        // What stays behind is a folder of the system's own temporary one.
        let _ = fs::remove_dir_all(&self.folder);
    }
}
