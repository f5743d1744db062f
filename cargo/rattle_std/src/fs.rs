//! Files.

use std::{fs, io};

pub use std::fs::{File, Metadata};

/// What can open files.
pub trait Files {
    type File;
}

/// Returns the metadata of the file of this name.
pub fn metadata<F: Files>(_files: &F, name: &str) -> io::Result<Metadata> {
    fs::metadata(name)
}

/// How a file is opened.
pub struct OpenOptions(fs::OpenOptions);

impl OpenOptions {
    pub fn new() -> Self {
        OpenOptions(fs::OpenOptions::new())
    }

    pub fn write(&mut self, write: bool) -> &mut Self {
        self.0.write(write);
        self
    }

    pub fn create(&mut self, create: bool) -> &mut Self {
        self.0.create(create);
        self
    }

    pub fn truncate(&mut self, truncate: bool) -> &mut Self {
        self.0.truncate(truncate);
        self
    }

    pub fn open<F: Files>(&self, _files: &F, name: &str) -> io::Result<File> {
        self.0.open(name)
    }
}
