//! The built program `takeback`, run on files in a folder of its own.

use std::path::{Path, PathBuf};
use std::process::{Command, Output};
use std::sync::atomic::{AtomicU64, Ordering};

const PROGRAM: &str = concat!(
    env!("CARGO_MANIFEST_DIR"),
    "/../../crates/takeback/out/takeback"
);
pub const NAMES: [&str; 3] = ["journal.bin", "table.bin", "bad.bin"];

/// A folder that is there while this lives.
struct Folder(PathBuf);

impl Folder {
    fn new() -> Folder {
        static MADE: AtomicU64 = AtomicU64::new(0);
        let made = MADE.fetch_add(1, Ordering::Relaxed);
        let name = format!("day-{}-{made}", std::process::id());
        let path = Path::new(env!("CARGO_TARGET_TMPDIR")).join(name);
        std::fs::create_dir_all(&path).unwrap();
        Folder(path)
    }
}

impl Drop for Folder {
    fn drop(&mut self) {
        let _ = std::fs::remove_dir_all(&self.0);
    }
}

/// Runs the program in a folder that was filled so.
pub fn run(fill: impl FnOnce(&Path)) -> Output {
    let folder = Folder::new();
    fill(&folder.0);
    let program = Path::new(PROGRAM);
    assert!(
        program.exists(),
        "not built yet: 'rt run' in crates/takeback builds it"
    );
    let mut command = Command::new(program);
    command.current_dir(&folder.0).output().unwrap()
}

/// What the program prints over these files, `None` for a missing one; it ends well and prints
/// nothing else.
pub fn printed(files: [Option<&[u8]>; 3]) -> Vec<u8> {
    let ran = run(|folder| {
        for (name, file) in NAMES.iter().zip(files) {
            if let Some(bytes) = file {
                std::fs::write(folder.join(name), bytes).unwrap();
            }
        }
    });
    assert!(ran.status.success(), "{}", ran.status);
    assert!(ran.stderr.is_empty());
    ran.stdout
}
