//! Stands in for the archive that the Rust writes its pictures to: it keeps nothing. The tilings
//! are collected before they would become pictures.

use std::io::{Result, Write};
use std::marker::PhantomData;

pub mod write {
    use super::PhantomData;

    pub struct FileOptions<T>(PhantomData<T>);

    impl<T> Default for FileOptions<T> {
        fn default() -> Self {
            FileOptions(PhantomData)
        }
    }
}

pub struct ZipWriter<W>(PhantomData<W>);

impl<W> ZipWriter<W> {
    pub fn new(_file: W) -> Self {
        ZipWriter(PhantomData)
    }

    pub fn start_file<T>(&mut self, _name: String, _options: write::FileOptions<T>) -> Result<()> {
        Ok(())
    }

    pub fn finish(self) -> Result<()> {
        Ok(())
    }
}

impl<W> Write for ZipWriter<W> {
    fn write(&mut self, bytes: &[u8]) -> Result<usize> {
        Ok(bytes.len())
    }

    fn flush(&mut self) -> Result<()> {
        Ok(())
    }
}
