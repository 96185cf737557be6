//! A file of frames that is only added to. What could not be added whole is taken back.

use std::fs::{File, TryLockError};
use std::io::{self, Write};

/// Where frames are kept: a file, or in tests what fails.
pub trait Medium: Send {
    /// Adds bytes at the end, all of them or an error.
    fn add(&mut self, bytes: &[u8]) -> io::Result<()>;
    /// Returns when what was added is on the disk.
    fn sync(&mut self) -> io::Result<()>;
    /// Leaves so many bytes.
    fn cut(&mut self, length: u64) -> io::Result<()>;
}

/// The file is open for adding.
impl Medium for File {
    fn add(&mut self, bytes: &[u8]) -> io::Result<()> {
        self.write_all(bytes)
    }

    fn sync(&mut self) -> io::Result<()> {
        self.sync_data()
    }

    fn cut(&mut self, length: u64) -> io::Result<()> {
        self.set_len(length)
    }
}

/// Frames that were added whole, and nothing after them.
pub struct FrameFile {
    medium: Box<dyn Medium>,
    /// The bytes of the frames.
    length: u64,
    /// The bytes before the last that were added.
    before: u64,
    /// What was added could not be taken back, or it is not known what the disk holds.
    is_broken: bool,
}

impl FrameFile {
    /// A medium that holds so many bytes of whole frames.
    pub fn new(medium: impl Medium + 'static, length: u64) -> FrameFile {
        FrameFile { medium: Box::new(medium), length, before: length, is_broken: false }
    }

    /// Adds whole frames. After an error the file is as it was, or takes nothing any more.
    pub fn add(&mut self, frames: &[u8]) -> io::Result<()> {
        if self.is_broken {
            return Err(io::Error::other("what was written before is not known"));
        }
        self.before = self.length;
        let added = self.medium.add(frames);
        self.length += frames.len() as u64;
        if added.is_err() {
            self.take_back();
        }
        added
    }

    /// Adds whole frames, and returns when they are on the disk. What a disk holds after it failed to
    /// sync is not known, so that the file takes nothing after that.
    pub fn add_synced(&mut self, frames: &[u8]) -> io::Result<()> {
        self.add(frames)?;
        let synced = self.medium.sync();
        if synced.is_err() {
            self.take_back();
            self.is_broken = true;
        }
        synced
    }

    /// Returns when all that was added is on the disk.
    pub fn sync(&mut self) -> io::Result<()> {
        self.medium.sync()
    }

    /// Takes back what was added last.
    pub fn take_back(&mut self) {
        self.length = self.before;
        self.is_broken |= self.medium.cut(self.before).is_err();
    }
}

/// Keeps other servers from the file for as long as it is open.
pub fn lock(file: &File) -> io::Result<()> {
    match file.try_lock() {
        Ok(()) => Ok(()),
        Err(TryLockError::WouldBlock) => Err(io::Error::other("another server has it open")),
        Err(TryLockError::Error(error)) => Err(error),
    }
}

#[cfg(test)]
pub mod tests {
    use crate::frame_file::*;
    use std::sync::{Arc, Mutex};

    /// A medium in memory that fails when it is told to.
    #[derive(Clone, Default)]
    pub struct Fake {
        pub bytes: Arc<Mutex<Vec<u8>>>,
        pub fails: Arc<Mutex<Fails>>,
    }

    #[derive(Clone, Copy, Default)]
    pub struct Fails {
        /// Half of the bytes are added, then it fails.
        pub add: bool,
        pub sync: bool,
        pub cut: bool,
    }

    impl Fake {
        pub fn fail(&self, fails: Fails) {
            *self.fails.lock().expect("a lock") = fails;
        }

        pub fn text(&self) -> String {
            String::from_utf8(self.bytes.lock().expect("a lock").clone()).expect("text")
        }

        fn check(&self, fails: impl Fn(&Fails) -> bool) -> io::Result<()> {
            let fails = fails(&self.fails.lock().expect("a lock"));
            if fails {
                Err(io::Error::other("full"))
            } else {
                Ok(())
            }
        }
    }

    impl Medium for Fake {
        fn add(&mut self, bytes: &[u8]) -> io::Result<()> {
            let failed = self.check(|fails| fails.add);
            let added = if failed.is_err() { &bytes[..bytes.len() / 2] } else { bytes };
            self.bytes.lock().expect("a lock").extend_from_slice(added);
            failed
        }

        fn sync(&mut self) -> io::Result<()> {
            self.check(|fails| fails.sync)
        }

        fn cut(&mut self, length: u64) -> io::Result<()> {
            self.check(|fails| fails.cut)?;
            self.bytes.lock().expect("a lock").truncate(length as usize);
            Ok(())
        }
    }

    #[test]
    fn what_is_added_in_part_is_taken_back() {
        let fake = Fake::default();
        let mut file = FrameFile::new(fake.clone(), 0);
        file.add(b"43\n").expect("room");
        fake.fail(Fails { add: true, ..Fails::default() });
        assert!(file.add(b"4300\n").is_err());
        assert_eq!(fake.text(), "43\n");
        fake.fail(Fails::default());
        file.add_synced(b"44\n").expect("room");
        assert_eq!(fake.text(), "43\n44\n");
        file.take_back();
        assert_eq!(fake.text(), "43\n");
    }

    #[test]
    fn a_part_that_stays_ends_the_file() {
        let fake = Fake::default();
        let mut file = FrameFile::new(fake.clone(), 0);
        fake.fail(Fails { add: true, cut: true, ..Fails::default() });
        assert!(file.add(b"4300\n").is_err());
        fake.fail(Fails::default());
        assert!(file.add(b"4300\n").is_err());
        assert_eq!(fake.text(), "43");
    }

    #[test]
    fn a_sync_that_fails_ends_the_file() {
        let fake = Fake::default();
        let mut file = FrameFile::new(fake.clone(), 0);
        fake.fail(Fails { sync: true, ..Fails::default() });
        assert!(file.add_synced(b"4300\n").is_err());
        assert_eq!(fake.text(), "");
        fake.fail(Fails::default());
        assert!(file.add_synced(b"4300\n").is_err());
        assert_eq!(fake.text(), "");
    }
}
