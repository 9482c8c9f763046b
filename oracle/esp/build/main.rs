//! Takes the wanted items out of the Rust's files, byte for byte, and writes them where the crate includes them.
//! Where the files are absent the crate is built without them and says why.

mod item;
mod lexer;
mod sha256;
mod wanted;

use std::fmt::Write;
use std::path::{Path, PathBuf};
use std::{env, fs};

use wanted::{MODULES, WRAPPED, Wanted};

fn source_folder() -> PathBuf {
    match env::var_os("ESP_HAL_SRC") {
        Some(folder) => folder.into(),
        None => Path::new(&env::var("CARGO_MANIFEST_DIR").unwrap()).join("../../../shared/docs/src"),
    }
}

fn main() {
    println!("cargo::rerun-if-changed=build");
    println!("cargo::rerun-if-env-changed=ESP_HAL_SRC");
    println!("cargo::rustc-check-cfg=cfg(esp_text)");
    let folder = source_folder();
    let list = match read_files(&folder) {
        Ok(files) => take_all(&files),
        Err(why) => {
            println!("cargo::warning=the Rust's text is absent: {why}");
            List::absent(&why).text()
        }
    };
    write_out("list.rs", &list);
}

fn write_out(name: &str, text: &str) {
    fs::write(Path::new(&env::var("OUT_DIR").unwrap()).join(name), text).unwrap();
}

struct File {
    name: &'static str,
    text: String,
}

fn read_files(folder: &Path) -> Result<Vec<File>, String> {
    let mut names: Vec<&'static str> = MODULES.iter().flat_map(|(_, items)| items.iter().map(|w| w.file)).collect();
    names.sort_unstable();
    names.dedup();
    names
        .iter()
        .map(|name| {
            let path = folder.join(name);
            println!("cargo::rerun-if-changed={}", path.display());
            let text = fs::read_to_string(&path).map_err(|e| format!("{name}: {e}"))?;
            Ok(File { name, text })
        })
        .collect()
}

/// Every module's items, and the list of what was taken. An item that is not there is an error of the build: the
/// text would not be the one that the shims are made for.
fn take_all(files: &[File]) -> String {
    println!("cargo::rustc-cfg=esp_text");
    println!("cargo::rustc-cfg=dma_can_access_psram");
    println!("cargo::rustc-cfg=soc_has_psram");
    let mut list = List::present(files);
    for (module, items) in MODULES {
        let mut text = String::new();
        for wanted in *items {
            let file = files.iter().find(|file| file.name == wanted.file).unwrap();
            text += &take(&file.text, wanted, &mut list);
            text += "\n";
        }
        write_out(&format!("{module}.rs"), &wrapped(module, text));
    }
    list.print();
    list.text()
}

fn wrapped(module: &str, text: String) -> String {
    match WRAPPED.iter().find(|(name, _)| *name == module) {
        Some((_, header)) => format!("{header} {{\n{text}}}\n"),
        None => text,
    }
}

fn take(source: &str, wanted: &Wanted, list: &mut List) -> String {
    let found = item::find(source, wanted.header);
    let Some(span) = found.get(wanted.nth) else {
        panic!("{}: item `{}` number {} is not there", wanted.file, wanted.header, wanted.nth);
    };
    if wanted.nth == 0 && !wanted.several && found.len() > 1 {
        panic!("{}: item `{}` is there {} times", wanted.file, wanted.header, found.len());
    }
    list.add(wanted, source, span);
    source[span.clone()].to_string()
}

/// What the crate exposes: which items of which files, each file with its SHA-256.
struct List {
    available: bool,
    why: String,
    files: Vec<(String, String)>,
    items: Vec<(&'static str, String, usize, usize)>,
}

impl List {
    fn absent(why: &str) -> List {
        List { available: false, why: why.into(), files: Vec::new(), items: Vec::new() }
    }

    fn present(files: &[File]) -> List {
        let sums = files.iter().map(|f| (f.name.to_string(), sha256::hex(f.text.as_bytes()))).collect();
        List { available: true, why: String::new(), files: sums, items: Vec::new() }
    }

    fn add(&mut self, wanted: &Wanted, source: &str, span: &std::ops::Range<usize>) {
        let line = |at: usize| source[..at].matches('\n').count() + 1;
        let row = (wanted.file, wanted.header.to_string(), line(span.start), line(span.end));
        if !self.items.contains(&row) {
            self.items.push(row);
        }
    }

    fn print(&self) {
        for (name, sum) in &self.files {
            let of_file = self.items.iter().filter(|item| item.0 == name);
            let names: Vec<String> = of_file.map(|(_, header, from, to)| format!("{header} ({from}-{to})")).collect();
            println!("cargo::warning={name} sha256 {sum}: {} items: {}", names.len(), names.join(", "));
        }
    }

    fn text(&self) -> String {
        let mut out = String::new();
        writeln!(out, "pub const AVAILABLE: bool = {};", self.available).unwrap();
        writeln!(out, "pub const WHY: &str = {:?};", self.why).unwrap();
        writeln!(out, "pub const FILES: &[(&str, &str)] = &{:?};", self.files).unwrap();
        writeln!(out, "pub const ITEMS: &[(&str, &str, usize, usize)] = &{:?};", self.items).unwrap();
        out
    }
}
