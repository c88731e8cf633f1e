"""A program over the original crate `walkdir` that takes the words of `list_walk` and writes the same lines.

With the word `--look` it looks at each entry too, as the real disk of `list_walk` has to.
It is built by cargo, without the network, from the sources that Debian's librust-walkdir-dev lays down.
"""

import glob
import os
import shutil
import subprocess

REGISTRY = "/usr/share/cargo/registry"

MANIFEST = """\
[package]
name = "original_walk"
version = "0.0.0"
edition = "2021"

[dependencies]
walkdir = { path = "%s" }

[profile.release]
debug = false

[patch.crates-io]
"""

PROGRAM = r"""
use std::ffi::OsString;
use std::io::{self, BufWriter, Write};
use std::os::unix::ffi::OsStrExt;
use std::path::Path;
use walkdir::{Error, WalkDir};

struct Words {
    root: OsString,
    options: Vec<String>,
}

impl Words {
    fn has(&self, option: &str) -> bool {
        self.options.iter().any(|word| word == option)
    }

    /// The number behind an option, which is the last one where it is repeated.
    fn number(&self, option: &str) -> Option<usize> {
        let place = self.options.iter().rposition(|word| word == option)?;
        self.options[place + 1].parse().ok()
    }
}

fn walk_of(words: &Words) -> WalkDir {
    let mut walk = WalkDir::new(&words.root)
        .follow_links(words.has("--follow"))
        .contents_first(words.has("--contents-first"))
        .same_file_system(words.has("--same-file-system"));
    if words.has("--sort") {
        walk = walk.sort_by_file_name();
    }
    if let Some(count) = words.number("--max-open") {
        walk = walk.max_open(count);
    }
    if let Some(depth) = words.number("--min-depth") {
        walk = walk.min_depth(depth);
    }
    if let Some(depth) = words.number("--max-depth") {
        walk = walk.max_depth(depth);
    }
    walk
}

/// The name that `list_walk` has for an error of Linux.
fn name_of(error: &io::Error) -> &'static [u8] {
    match error.raw_os_error() {
        Some(2) => b"Absent",
        Some(20 | 21) => b"WrongKind",
        Some(40) => b"LinkLoop",
        _ => b"Failed",
    }
}

fn bytes_of(path: &Path) -> &[u8] {
    path.as_os_str().as_bytes()
}

fn line_of(error: &Error) -> Vec<u8> {
    let path = error.path().map(bytes_of);
    match (error.io_error(), path, error.loop_ancestor()) {
        (Some(cause), Some(path), _) => [b"IO error for operation on ", path, b": ", name_of(cause)].concat(),
        (Some(cause), None, _) => name_of(cause).to_vec(),
        (None, Some(child), Some(ancestor)) => {
            [b"File system loop found: ", child, b" points to an ancestor ", bytes_of(ancestor)].concat()
        }
        _ => b"no known error".to_vec(),
    }
}

fn main() -> io::Result<()> {
    let mut given = std::env::args_os().skip(1);
    let root = given.next().expect("a root");
    let options = given.map(|word| word.into_string().expect("words in UTF-8")).collect();
    let mut out = BufWriter::with_capacity(32_768, io::stdout().lock());
    let words = Words { root, options };
    let looks = words.has("--look");
    let mut status = 0;
    for item in walk_of(&words) {
        match item {
            Ok(entry) => {
                if looks && entry.metadata().is_err() {
                    status = 2;
                }
                out.write_all(bytes_of(entry.path()))?
            }
            Err(error) => {
                status = 2;
                out.write_all(&line_of(&error))?;
            }
        }
        out.write_all(b"\n")?;
    }
    out.flush()?;
    drop(out);
    std::process::exit(status)
}
"""


def source_in(registry):
    """The newest source of the crate below a folder of sources."""
    return max(glob.glob(os.path.join(registry, "walkdir-2.*")), default=None)


def build(folder, registry=REGISTRY):
    """The path of the built program in a folder, or why there is none, and the version of the crate."""
    source = source_in(registry)
    if not shutil.which("cargo") or not source:
        return None, "cargo or a source of walkdir in %s is missing" % registry
    os.makedirs(os.path.join(folder, "src"))
    with open(os.path.join(folder, "src/main.rs"), "w") as file:
        file.write(PROGRAM)
    with open(os.path.join(folder, "Cargo.toml"), "w") as file:
        file.write(MANIFEST % source)
        # What the crate stands on is taken from the same folder; on Linux the crates for Windows are only named.
        found = sorted(glob.glob(os.path.join(registry, "same-file-*")) + glob.glob(os.path.join(registry, "winapi-*")))
        for name, path in {os.path.basename(path).rsplit("-", 1)[0]: path for path in found}.items():
            file.write('%s = { path = "%s" }\n' % (name, path))
    words = ["cargo", "build", "--offline", "--release", "--quiet", "--target-dir", os.path.join(folder, "target")]
    made = subprocess.run(words, cwd=folder, stdin=subprocess.DEVNULL, capture_output=True, text=True)
    if made.returncode:
        return None, "cargo could not build it:\n" + made.stderr
    return os.path.join(folder, "target/release/original_walk"), os.path.basename(source)
