//! Lays the crate's modules out in `OUT_DIR`, where `src/main.rs` includes them.
//!
//! Every file is copied byte for byte. One line after its end declares a child module, which may
//! read the private fields of its parent: the file of the same name under `views/`. What the crate
//! has around these modules is in `tree/`.

#[allow(dead_code)] // The program names the files that are not built; the build does not.
#[path = "src/sources.rs"]
mod sources;

use std::path::{Path, PathBuf};
use std::{env, fs, io};

use sources::{Item, PARTS, WHOLE};

/// The variable that holds the folder of the crate's sources, the one in which `lib.rs` stands.
const SOURCES: &str = "QUINN_PROTO_SRC";

/// The files of our own around the crate's modules.
const TREE: &[&str] = &["connection.rs"];

fn main() {
    println!("cargo::rerun-if-changed=build.rs");
    println!("cargo::rerun-if-changed=views");
    println!("cargo::rerun-if-env-changed={SOURCES}");
    if let Err(why) = Folders::from_environment().and_then(|folders| folders.lay_out()) {
        println!("cargo::error={why}");
    }
}

/// Where the build reads and writes.
struct Folders {
    sources: PathBuf,
    package: PathBuf,
    out: PathBuf,
}

impl Folders {
    fn from_environment() -> Result<Self, String> {
        let sources = variable(SOURCES).map_err(|why| {
            format!("{why}: set it to the folder `src` of quinn-proto 0.11.19, as an absolute path")
        })?;
        Ok(Self {
            sources: sources.into(),
            package: variable("CARGO_MANIFEST_DIR")?.into(),
            out: Path::new(&variable("OUT_DIR")?).join("quinn_proto"),
        })
    }

    fn lay_out(&self) -> Result<(), String> {
        for file in TREE {
            self.write(file, &read(&self.package.join("tree").join(file))?)?;
        }
        for file in WHOLE {
            self.write(file, &read(&self.sources.join(file))?)?;
        }
        for part in PARTS {
            let head = read(&self.package.join("tree").join(part.file))?;
            let source = read(&self.sources.join(part.file))?;
            let cut = cut(&source, &part.item)
                .ok_or_else(|| format!("{}: no {} to cut out", part.file, part.item.name()))?;
            self.write(part.file, &(head + cut))?;
        }
        Ok(())
    }

    /// Writes a file of the tree, and after it the declaration of its view, if it has one.
    fn write(&self, file: &str, text: &str) -> Result<(), String> {
        let view = self.package.join("views").join(file);
        let declaration = if view.exists() {
            format!("\n#[path = {view:?}]\npub mod oracle_view;\n")
        } else {
            String::new()
        };
        let to = self.out.join(file);
        let folder = to.parent().expect("a file stands in a folder");
        fs::create_dir_all(folder)
            .and_then(|()| fs::write(&to, text.to_owned() + &declaration))
            .map_err(at(&to))
    }
}

fn variable(name: &str) -> Result<String, String> {
    env::var(name).map_err(|why| format!("{name}: {why}"))
}

/// Reads a file, and lets a change of it build anew.
fn read(path: &Path) -> Result<String, String> {
    println!("cargo::rerun-if-changed={}", path.display());
    fs::read_to_string(path).map_err(at(path))
}

fn at(path: &Path) -> impl FnOnce(io::Error) -> String {
    let path = path.display().to_string();
    move |why| format!("{path}: {why}")
}

/// The lines of an item, as they stand in the file.
fn cut<'a>(source: &'a str, item: &Item) -> Option<&'a str> {
    match item {
        Item::Constant(name) => {
            let start = line_start(source, &format!("const {name}:"))?;
            Some(&source[start..end_of(source, start, "\n")?])
        }
        Item::Struct(name) => {
            let declared = line_start(source, &format!("pub struct {name} {{"))?;
            let implemented = line_start(source, &format!("impl {name} {{"))?;
            let end = end_of(source, implemented, "\n}\n")?;
            Some(&source[with_attributes(source, declared)..end])
        }
    }
}

/// The start of the first line that begins so.
fn line_start(source: &str, beginning: &str) -> Option<usize> {
    source.find(&format!("\n{beginning}")).map(|at| at + 1)
}

/// The end of the first such text at or after a place.
fn end_of(source: &str, start: usize, text: &str) -> Option<usize> {
    source[start..].find(text).map(|at| start + at + text.len())
}

/// Moves the start of an item up over its attributes and comments.
fn with_attributes(source: &str, start: usize) -> usize {
    let attached = source[..start]
        .split_inclusive('\n')
        .rev()
        .take_while(|line| line.starts_with("#[") || line.starts_with("///"));
    start - attached.map(str::len).sum::<usize>()
}
