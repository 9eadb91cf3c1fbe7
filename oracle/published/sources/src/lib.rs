//! Helper of the build scripts: finds the published sources and readies
//! them for the compiler. Nothing of them is stored in this workspace.

use std::fmt::Write;
use std::path::{Path, PathBuf};
use std::{env, fs};

/// The environment variable that sets the folder of the published sources.
/// A relative path is taken from the repository's root. The script
/// `oracle/at-hand` has the same rule and the same default.
pub const FOLDER_VARIABLE: &str = "CYRS_SRC";

const DEFAULT_FOLDER: &str = "../shared/docs/src";

/// The folder of the published sources.
pub fn folder() -> PathBuf {
    let set = env::var(FOLDER_VARIABLE).ok().filter(|set| !set.is_empty());
    let folder = workspace().join("..").join(set.as_deref().unwrap_or(DEFAULT_FOLDER));
    fs::canonicalize(&folder).unwrap_or_else(|e| {
        panic!("no published sources at {}: {e}; set {FOLDER_VARIABLE}", folder.display())
    })
}

/// The folder of this workspace.
pub fn workspace() -> PathBuf {
    Path::new(env!("CARGO_MANIFEST_DIR")).join("../..")
}

/// Lines to leave out: from the one line equal to `first` to the next line
/// equal to `last`.
pub struct LeftOut {
    pub first: &'static str,
    pub last: &'static str,
    pub why: &'static str,
}

impl LeftOut {
    pub const fn line(text: &'static str, why: &'static str) -> Self {
        LeftOut { first: text, last: text, why }
    }

    pub const fn block(first: &'static str, last: &'static str, why: &'static str) -> Self {
        LeftOut { first, last, why }
    }
}

/// One build: modules for the crate to include, and a record of the files.
pub struct Build {
    folder: PathBuf,
    out: PathBuf,
    modules: String,
    record: String,
}

impl Build {
    pub fn new() -> Self {
        println!("cargo:rerun-if-env-changed={FOLDER_VARIABLE}");
        Build {
            folder: folder(),
            out: PathBuf::from(env::var("OUT_DIR").expect("OUT_DIR")),
            modules: String::new(),
            record: String::new(),
        }
    }

    /// A public module compiled from the published file where it stands.
    pub fn module(&mut self, name: &str, file: &str) {
        let bytes = self.read(file);
        self.note(file, &bytes, "compiled unchanged, at its place");
        self.add_module(name, &self.folder.join(file));
    }

    /// A copy, byte for byte, beside the file that declares it as a module.
    pub fn beside(&mut self, name: &str, file: &str) {
        let bytes = self.read(file);
        let copy = self.out.join(format!("{name}.rs"));
        fs::write(&copy, &bytes).expect("copy");
        assert!(fs::read(&copy).expect("copy") == bytes, "{file}: the copy differs");
        self.note(file, &bytes, "compiled unchanged, from a copy held against it");
    }

    /// A public module compiled from the published file less some lines.
    pub fn module_without(&mut self, name: &str, file: &str, left_out: &[LeftOut]) {
        let bytes = self.read(file);
        let text = String::from_utf8(bytes.clone()).expect("published sources are UTF-8");
        self.note(file, &bytes, "compiled without the lines below");
        let mut lines: Vec<Option<&str>> = text.lines().map(Some).collect();
        for cut in left_out {
            let (from, to) = find(&lines, cut).unwrap_or_else(|| panic!("{file}: {}", cut.first));
            lines[from..=to].fill(None);
            writeln!(self.record, "  lines {}-{}: {}", from + 1, to + 1, cut.why).unwrap();
        }
        let kept: Vec<&str> = lines.into_iter().map(|l| l.unwrap_or("")).collect();
        let path = self.out.join(format!("{name}.rs"));
        fs::write(&path, kept.join("\n") + "\n").expect("write");
        self.add_module(name, &path);
    }

    /// A public module of the published file and `more` below it, so that
    /// its private helpers can be asked.
    pub fn module_with(&mut self, name: &str, file: &str, more: &str) {
        let text = String::from_utf8(self.read(file)).expect("published sources are UTF-8");
        let path = self.out.join(format!("{name}.rs"));
        fs::write(&path, text + more).expect("write");
        self.add_module(name, &path);
    }

    /// Writes what the crate includes.
    pub fn finish(self) {
        fs::write(self.out.join("modules.rs"), self.modules).expect("write");
        fs::write(self.out.join("record.txt"), self.record).expect("write");
    }

    fn read(&self, file: &str) -> Vec<u8> {
        let path = self.folder.join(file);
        println!("cargo:rerun-if-changed={}", path.display());
        fs::read(&path).unwrap_or_else(|e| panic!("{}: {e}", path.display()))
    }

    fn add_module(&mut self, name: &str, path: &Path) {
        let path = path.to_str().expect("a path in UTF-8");
        writeln!(self.modules, "#[path = {path:?}]\npub mod {name};").unwrap();
    }

    fn note(&mut self, file: &str, bytes: &[u8], how: &str) {
        let (size, hash) = (bytes.len(), fnv1a(bytes));
        writeln!(self.record, "{file}: {size} bytes, FNV-1a {hash:016x}, {how}").unwrap();
    }
}

impl Default for Build {
    fn default() -> Self {
        Self::new()
    }
}

fn find(lines: &[Option<&str>], cut: &LeftOut) -> Option<(usize, usize)> {
    let mut firsts = (0..lines.len()).filter(|i| lines[*i] == Some(cut.first));
    let from = firsts.next()?;
    if firsts.next().is_some() {
        return None;
    }
    let to = (from..lines.len()).find(|i| lines[*i] == Some(cut.last))?;
    Some((from, to))
}

fn fnv1a(bytes: &[u8]) -> u64 {
    bytes.iter().fold(0xcbf2_9ce4_8422_2325, |hash, byte| {
        (hash ^ u64::from(*byte)).wrapping_mul(0x100_0000_01b3)
    })
}
