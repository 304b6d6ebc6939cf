//! A temporary copy of the tests, in which faults are planted.

use crate::faults::Fault;
use std::fs;
use std::io::Result;
use std::path::{Path, PathBuf};
use std::process::{self, Command};

pub struct Copy {
    home: PathBuf,
    archive: PathBuf,
}

impl Copy {
    /// Copies the tests; `archive` is the compiled library.
    pub fn of(tests: &Path, archive: &Path) -> Result<Copy> {
        let home = std::env::temp_dir().join(format!("planted-{}", process::id()));
        copy_all(tests, &home.join("tests"))?;
        Ok(Copy {
            home,
            archive: archive.to_path_buf(),
        })
    }

    /// Builds the cross-check and says where it is.
    pub fn build(&self) -> std::result::Result<PathBuf, String> {
        let target = self.home.join("target");
        let output = Command::new("cargo")
            .args(["build", "--release", "--offline", "--package", "crosscheck"])
            .current_dir(self.home.join("tests"))
            .env("CARGO_TARGET_DIR", &target)
            .env("POOL_ARCHIVE", &self.archive)
            .output()
            .map_err(|error| error.to_string())?;
        if !output.status.success() {
            return Err(String::from_utf8_lossy(&output.stderr).to_string());
        }
        Ok(target.join("release/crosscheck"))
    }

    /// Plants the fault; the text before comes back, for `restore`.
    pub fn plant(&self, fault: &Fault) -> std::result::Result<String, String> {
        let path = self.source(fault);
        let before = fs::read_to_string(&path).map_err(|error| error.to_string())?;
        let times = before.matches(fault.old).count();
        if times != 1 {
            return Err(format!("its text stands {times} times in {}", fault.file));
        }
        self.restore(fault, &before.replace(fault.old, fault.new))?;
        Ok(before)
    }

    pub fn restore(&self, fault: &Fault, text: &str) -> std::result::Result<(), String> {
        fs::write(self.source(fault), text).map_err(|error| error.to_string())
    }

    fn source(&self, fault: &Fault) -> PathBuf {
        self.home.join("tests/second/src").join(fault.file)
    }
}

impl Drop for Copy {
    fn drop(&mut self) {
        if let Err(error) = fs::remove_dir_all(&self.home) {
            eprintln!("{} stays: {error}", self.home.display());
        }
    }
}

fn copy_all(from: &Path, to: &Path) -> Result<()> {
    fs::create_dir_all(to)?;
    for entry in fs::read_dir(from)? {
        let entry = entry?;
        let name = entry.file_name();
        if entry.file_type()?.is_dir() {
            if name != "target" {
                copy_all(&entry.path(), &to.join(name))?;
            }
        } else {
            fs::copy(entry.path(), to.join(name))?;
        }
    }
    Ok(())
}
