//! What stands for the runtime: the value by which a program reaches outside of its process.
use super::alloc::Global;
use super::fs::{Metadata, OpenFile, Permissions};
use std::fs::{self, File, OpenOptions};
use std::io::{self, Read, Seek, Write};
use std::os::fd::AsFd;
use std::path::{Path, PathBuf};

/// The system.
#[derive(Clone, Copy, Debug)]
pub struct HostRuntime;

impl HostRuntime {
    /// Standard input.
    pub fn stdin(&self) -> io::Stdin {
        io::stdin()
    }

    /// Standard error.
    pub fn stderr(&self) -> io::Stderr {
        io::stderr()
    }
}

/// A runtime that has the allocator.
pub trait AllocGlobal {
    fn alloc(&self) -> Global;
}

impl AllocGlobal for HostRuntime {
    fn alloc(&self) -> Global {
        Global
    }
}

/// A runtime that has the words behind the program's name.
pub trait Env {
    fn args(&self) -> std::env::ArgsOs;
}

impl Env for HostRuntime {
    fn args(&self) -> std::env::ArgsOs {
        std::env::args_os()
    }
}

/// A runtime that has standard input, with no memory between it and who reads.
pub trait Input {
    type Reader: Read;

    fn reader(&self) -> Self::Reader;
}

/// A runtime that has standard output.
pub trait Print {
    /// Writes some of the bytes, by one call of the system, and says how many.
    fn write_some(&self, bytes: &[u8]) -> io::Result<usize>;
}

/// A runtime that has standard error.
pub trait Eprint {
    fn eprint(&self, text: &str) -> io::Result<()>;
}

/// A standard stream as a file, so that nothing is kept between. `None`: the system gives no second
/// descriptor for it.
pub struct Stream(Option<File>);

impl Stream {
    fn of<F: AsFd>(stream: F) -> Stream {
        Stream(stream.as_fd().try_clone_to_owned().ok().map(File::from))
    }

    fn file(&mut self) -> io::Result<&mut File> {
        self.0.as_mut().ok_or(io::Error::from(io::ErrorKind::Other))
    }
}

impl Read for Stream {
    fn read(&mut self, bytes: &mut [u8]) -> io::Result<usize> {
        self.file()?.read(bytes)
    }
}

impl Input for HostRuntime {
    type Reader = Stream;

    fn reader(&self) -> Stream {
        Stream::of(io::stdin())
    }
}

impl Print for HostRuntime {
    fn write_some(&self, bytes: &[u8]) -> io::Result<usize> {
        Stream::of(io::stdout()).file()?.write(bytes)
    }
}

impl Eprint for HostRuntime {
    fn eprint(&self, text: &str) -> io::Result<()> {
        Stream::of(io::stderr()).file()?.write_all(text.as_bytes())
    }
}

/// What `io::writer` gives: standard output as a writer.
pub struct Printer<'a, P> {
    to: &'a P,
}

/// Standard output of a runtime as a writer.
pub fn writer<P: Print>(to: &P) -> Printer<'_, P> {
    Printer { to }
}

impl<P: Print> Write for Printer<'_, P> {
    fn write(&mut self, bytes: &[u8]) -> io::Result<usize> {
        self.to.write_some(bytes)
    }

    fn flush(&mut self) -> io::Result<()> {
        Ok(())
    }
}

/// A runtime that has files.
pub trait Files {
    type File: Read + Write + Seek + OpenFile;

    fn open_file(&self, how: &OpenOptions, path: &Path) -> io::Result<Self::File>;

    fn metadata(&self, path: &Path) -> io::Result<Metadata>;

    fn symlink_metadata(&self, path: &Path) -> io::Result<Metadata>;

    fn canonicalize(&self, path: &Path) -> io::Result<PathBuf>;

    fn set_permissions(&self, path: &Path, permissions: Permissions) -> io::Result<()>;

    fn chown(&self, path: &str, user: Option<u32>, group: Option<u32>) -> io::Result<()>;

    fn rename(&self, from: &Path, to: &Path) -> io::Result<()>;

    fn remove_file(&self, path: &Path) -> io::Result<()>;
}

impl Files for HostRuntime {
    type File = File;

    fn open_file(&self, how: &OpenOptions, path: &Path) -> io::Result<File> {
        how.open(path)
    }

    fn metadata(&self, path: &Path) -> io::Result<Metadata> {
        fs::metadata(path)
    }

    fn symlink_metadata(&self, path: &Path) -> io::Result<Metadata> {
        fs::symlink_metadata(path)
    }

    /// A path that is no text is an error, as in Rattle.
    fn canonicalize(&self, path: &Path) -> io::Result<PathBuf> {
        let found = fs::canonicalize(path)?;
        match found.to_str() {
            Some(_) => Ok(found),
            None => Err(io::Error::from(io::ErrorKind::InvalidData)),
        }
    }

    fn set_permissions(&self, path: &Path, permissions: Permissions) -> io::Result<()> {
        fs::set_permissions(path, permissions)
    }

    fn chown(&self, path: &str, user: Option<u32>, group: Option<u32>) -> io::Result<()> {
        std::os::unix::fs::chown(path, user, group)
    }

    fn rename(&self, from: &Path, to: &Path) -> io::Result<()> {
        fs::rename(from, to)
    }

    fn remove_file(&self, path: &Path) -> io::Result<()> {
        fs::remove_file(path)
    }
}
