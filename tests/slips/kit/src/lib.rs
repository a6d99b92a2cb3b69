//! What Rattle's std does, as far as the gas plan program calls it, for the crates as Rust.
//!
//! The program's two files and what it prints are kept in memory, one set for each thread: see [`run`].
#![forbid(unsafe_code)]

use std::cell::RefCell;

/// Which edit of the code is awake in this thread; 0 is none.
pub mod edit {
    use std::cell::Cell;

    thread_local! {
        static AWAKE: Cell<usize> = const { Cell::new(0) };
    }

    pub fn is(number: usize) -> bool {
        AWAKE.get() == number
    }

    pub fn wake(number: usize) {
        AWAKE.set(number);
    }
}

/// The program's folder: its files by name, how far each was read, and what was printed.
#[derive(Default)]
struct Folder {
    files: Vec<(&'static [u8], Vec<u8>, usize)>,
    printed: Vec<u8>,
}

thread_local! {
    static FOLDER: RefCell<Folder> = RefCell::default();
}

/// What a program prints that is run in a folder with these files.
pub fn run(
    files: Vec<(&'static [u8], Vec<u8>)>,
    main: fn(rt::HostRuntime) -> io::Result<()>,
) -> Vec<u8> {
    FOLDER.with_borrow_mut(|folder| {
        folder.files = files
            .into_iter()
            .map(|(name, file)| (name, file, 0))
            .collect();
        folder.printed.clear();
    });
    main(rt::HostRuntime).expect("a program that ends well");
    FOLDER.with_borrow(|folder| folder.printed.clone())
}

pub mod rt {
    /// What is handed to `main`: the leave to open files, and standard output.
    pub struct HostRuntime;

    pub trait Files {}

    impl Files for HostRuntime {}
}

pub mod fs {
    use super::{FOLDER, io, rt};

    /// A file of the folder by its place there.
    pub struct File(usize);

    pub fn open(_: &impl rt::Files, path: &str) -> io::Result<File> {
        FOLDER.with_borrow(|folder| {
            let mut names = folder.files.iter().map(|(name, _, _)| *name);
            let found = names.position(|name| name == path.as_bytes());
            found.map(File).ok_or(io::Error)
        })
    }

    impl io::Read for File {
        /// Fills the buffer as far as the file goes; the answer is the count of bytes.
        fn read(&mut self, buffer: &mut [u8]) -> io::Result<usize> {
            FOLDER.with_borrow_mut(|folder| {
                let (_, file, at) = &mut folder.files[self.0];
                let count = buffer.len().min(file.len() - *at);
                buffer[..count].copy_from_slice(&file[*at..*at + count]);
                *at += count;
                Ok(count)
            })
        }
    }
}

pub mod io {
    use super::{FOLDER, rt};

    #[derive(Debug)]
    pub struct Error;

    pub type Result<T> = std::result::Result<T, Error>;

    pub trait Read {
        fn read(&mut self, buffer: &mut [u8]) -> Result<usize>;
    }

    pub trait Print {
        fn write_all(&self, bytes: &[u8]) -> Result<()>;
    }

    impl Print for rt::HostRuntime {
        fn write_all(&self, bytes: &[u8]) -> Result<()> {
            FOLDER.with_borrow_mut(|folder| folder.printed.extend_from_slice(bytes));
            Ok(())
        }
    }
}
