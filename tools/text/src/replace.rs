//! Files that get new contents all together or not at all.

use std::fs;
use std::io::Write;
use std::path::{Path, PathBuf};
use std::process;

use crate::files::{Result, told};

/// A file and what is to stand in it.
pub struct New {
    pub path: PathBuf,
    pub bytes: Vec<u8>,
}

/// A file whose new contents stand beside it, and its old ones where it had some.
struct Staged {
    path: PathBuf,
    new: PathBuf,
    old: PathBuf,
}

/// Gives every file its new contents. They are written to temporary files in the same folder,
/// which are renamed once all are written; after an error each file is as it was.
pub fn replace(files: &[New]) -> Result<()> {
    let staged: Vec<Staged> = files.iter().map(Staged::of).collect();
    let mut pairs = files.iter().zip(&staged);
    let written = pairs.try_for_each(|(file, it)| it.write(&file.bytes));
    let done = written.and_then(|()| swap(&staged));
    for file in &staged {
        // What was renamed is not there any more.
        let _ = fs::remove_file(&file.new);
        let _ = fs::remove_file(&file.old);
    }
    done
}

fn swap(staged: &[Staged]) -> Result<()> {
    for (at, file) in staged.iter().enumerate() {
        if let Err(error) = fs::rename(&file.new, &file.path) {
            staged[..at].iter().for_each(Staged::put_back);
            return Err(told(&file.path, error));
        }
    }
    Ok(())
}

impl Staged {
    fn of(file: &New) -> Staged {
        let name = file.path.file_name().unwrap_or_default().display();
        let beside = |end: &str| {
            let name = format!(".{name}.{}.{end}", process::id());
            file.path.with_file_name(name)
        };
        Staged {
            path: file.path.clone(),
            new: beside("new"),
            old: beside("old"),
        }
    }

    fn write(&self, bytes: &[u8]) -> Result<()> {
        // A rename would not stop at a file that is not to be written.
        if let Ok(there) = fs::metadata(&self.path) {
            if there.permissions().readonly() {
                return Err(format!("{}: it is read-only", self.path.display()));
            }
            fs::copy(&self.path, &self.old).map_err(|error| told(&self.path, error))?;
        }
        write_new(&self.new, bytes).map_err(|error| told(&self.path, error))
    }

    fn put_back(&self) {
        let _ = match self.old.exists() {
            true => fs::rename(&self.old, &self.path),
            false => fs::remove_file(&self.path),
        };
    }
}

fn write_new(path: &Path, bytes: &[u8]) -> std::io::Result<()> {
    let mut file = fs::File::create_new(path)?;
    file.write_all(bytes)?;
    file.sync_all()
}

#[cfg(test)]
mod tests {
    use super::*;

    /// The second file's new contents are gone when it is to be renamed.
    #[test]
    fn what_was_renamed_is_put_back() {
        let folder = std::env::temp_dir().join(format!("gasplan-text-{}", process::id()));
        fs::create_dir_all(&folder).unwrap();
        let new = |name: &str| New {
            path: folder.join(name),
            bytes: vec![1],
        };
        let files = [new("first"), new("absent"), new("last")];
        fs::write(&files[0].path, "old").unwrap();
        fs::write(&files[2].path, "older").unwrap();
        let staged: Vec<Staged> = files.iter().map(Staged::of).collect();
        for file in &staged {
            file.write(&[1]).unwrap();
        }
        fs::remove_file(&staged[2].new).unwrap();
        let error = swap(&staged).unwrap_err();
        assert!(error.contains("last: No such file"), "{error}");
        assert_eq!(fs::read(&files[0].path).unwrap(), b"old");
        assert!(!files[1].path.exists());
        assert_eq!(fs::read(&files[2].path).unwrap(), b"older");
        fs::remove_dir_all(&folder).unwrap();
    }
}
