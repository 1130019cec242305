//! What the tests share: folders of their own, and refusals by their variants.

#![allow(dead_code)] // (not each file of tests has a use for all of it)

use fstch::{Geometry, Options, Store};
use std::path::{Path, PathBuf};
use std::process::Command;
use std::{env, fs, process};

/// That a call is refused, by this variant.
#[macro_export]
macro_rules! refused {
    ($call:expr, $why:pat) => {
        match $call {
            Err($why) => (),
            other => panic!("{} comes to {other:?}", stringify!($call)),
        }
    };
}

/// A folder for the files of one test, which is removed with them.
pub struct Folder {
    path: PathBuf,
}

impl Folder {
    pub fn new(name: &str) -> Folder {
        let path = env::temp_dir().join(format!("fstch-{}-{name}", process::id()));
        fs::create_dir(&path).unwrap();
        Folder { path }
    }

    /// The test's file, or its folder by an empty name.
    pub fn file(&self, name: &str) -> PathBuf {
        self.path.join(name)
    }

    /// A new file of one index block, and so many extents of 16 blocks.
    pub fn made(&self, extents: u32) -> PathBuf {
        let path = self.file("test.disk");
        Store::make(&path, Geometry { index_blocks: 1, extents, extent_blocks: 0 }).unwrap();
        path
    }

    /// The store of such a file.
    pub fn store(&self, extents: u32) -> Store {
        Store::open(self.made(extents)).unwrap()
    }

    /// The same, whose puts win no room back.
    pub fn store_by_hand(&self, extents: u32) -> Store {
        Store::open_with(self.made(extents), Options::new().manual()).unwrap()
    }
}

impl Drop for Folder {
    fn drop(&mut self) {
        fs::remove_dir_all(&self.path).unwrap();
    }
}

/// What the file of this path has under a key.
pub fn value_in(path: &Path, key: &[u8]) -> Option<Vec<u8>> {
    Store::open(path).unwrap().get(key).unwrap()
}

const FILE: &str = "FSTCH_TEST_FILE";

/// The file of a test that another one has run in a process of its own, or `None` where it has not.
pub fn file_of_process() -> Option<PathBuf> {
    env::var_os(FILE).map(PathBuf::from)
}

/// Runs an ignored test of this program on a file, in a process of its own, behind some lines of the shell.
pub fn run_alone(test: &str, file: &Path, lines: &str) {
    let ended = Command::new("sh")
        .args(["-c", &format!("{lines}\nexec \"$@\""), "sh"])
        .arg(env::current_exe().unwrap())
        .args(["--ignored", "--exact", test])
        .env(FILE, file)
        .output()
        .unwrap();
    let said = String::from_utf8_lossy(&ended.stdout);
    assert!(ended.status.success() && said.contains("1 passed"), "{ended:?}");
}
