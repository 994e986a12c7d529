//! What stands for `std::fs`: files by a runtime. Paths are text, as in Rattle.
use super::rt::Files;
use std::io;
use std::path::{Path, PathBuf};

pub use std::fs::{File, Metadata, Permissions, TryLockError};

/// How a file is opened.
#[derive(Clone, Debug)]
pub struct OpenOptions {
    how: std::fs::OpenOptions,
}

impl OpenOptions {
    pub fn new() -> OpenOptions {
        OpenOptions {
            how: File::options(),
        }
    }

    pub fn read(&mut self, read: bool) -> &mut OpenOptions {
        self.how.read(read);
        self
    }

    pub fn write(&mut self, write: bool) -> &mut OpenOptions {
        self.how.write(write);
        self
    }

    pub fn create_new(&mut self, create_new: bool) -> &mut OpenOptions {
        self.how.create_new(create_new);
        self
    }

    pub fn open<R: Files, P: AsRef<Path>>(&self, rt: &R, path: P) -> io::Result<R::File> {
        rt.open_file(&self.how, path.as_ref())
    }
}

/// The mode that a new file gets.
pub trait OpenOptionsExt {
    fn mode(&mut self, mode: u32) -> &mut OpenOptions;
}

impl OpenOptionsExt for OpenOptions {
    fn mode(&mut self, mode: u32) -> &mut OpenOptions {
        std::os::unix::fs::OpenOptionsExt::mode(&mut self.how, mode);
        self
    }
}

/// What an open file can do beside being read and written.
pub trait OpenFile {
    fn metadata(&self) -> io::Result<Metadata>;

    fn set_len(&self, length: u64) -> io::Result<()>;

    fn sync_all(&self) -> io::Result<()>;
}

impl OpenFile for File {
    fn metadata(&self) -> io::Result<Metadata> {
        File::metadata(self)
    }

    fn set_len(&self, length: u64) -> io::Result<()> {
        File::set_len(self, length)
    }

    fn sync_all(&self) -> io::Result<()> {
        File::sync_all(self)
    }
}

/// Opens a file to be read.
pub fn open<R: Files, P: AsRef<Path>>(rt: &R, path: P) -> io::Result<R::File> {
    rt.open_file(File::options().read(true), path.as_ref())
}

/// Opens a file to be written from nothing, and makes it where it is missing.
pub fn create<R: Files, P: AsRef<Path>>(rt: &R, path: P) -> io::Result<R::File> {
    rt.open_file(
        File::options().write(true).create(true).truncate(true),
        path.as_ref(),
    )
}

pub fn metadata<R: Files, P: AsRef<Path>>(rt: &R, path: P) -> io::Result<Metadata> {
    rt.metadata(path.as_ref())
}

pub fn symlink_metadata<R: Files, P: AsRef<Path>>(rt: &R, path: P) -> io::Result<Metadata> {
    rt.symlink_metadata(path.as_ref())
}

pub fn canonicalize<R: Files, P: AsRef<Path>>(rt: &R, path: P) -> io::Result<PathBuf> {
    rt.canonicalize(path.as_ref())
}

pub fn set_permissions<R: Files, P: AsRef<Path>>(
    rt: &R,
    path: P,
    permissions: Permissions,
) -> io::Result<()> {
    rt.set_permissions(path.as_ref(), permissions)
}

pub fn rename<R: Files, P: AsRef<Path>, Q: AsRef<Path>>(rt: &R, from: P, to: Q) -> io::Result<()> {
    rt.rename(from.as_ref(), to.as_ref())
}

pub fn remove_file<R: Files, P: AsRef<Path>>(rt: &R, path: P) -> io::Result<()> {
    rt.remove_file(path.as_ref())
}
