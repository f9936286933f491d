//! Usage: structs CRATES < what structs.c prints
//! Holds sizes and offsets of the structs that cross the C interface against each other: those of
//! include/wentuqis.h (read from standard input), of rust/src/shapes.rs (compiled here), and of the
//! declarations `#[repr(C)] pub struct ..` in the Rattle files below CRATES, which are read as text
//! and laid out by C's rules for x86-64. All three must have the same structs. Prints what differs
//! and the counts; the exit status is 1 if anything differs.

#![allow(dead_code)]

#[path = "../rust/src/shapes.rs"]
mod shapes;

use std::collections::BTreeMap;
use std::mem::{offset_of, size_of};
use std::path::{Path, PathBuf};
use std::process::ExitCode;
use std::{env, fs, io};

use shapes::{FillPixel, PlanarYuvLayout, PlaneLayout, Region, Side, YuvSet};

/// What is said of a struct: its line, and one for each of its fields.
type Lines = Vec<String>;

/// The structs of one language by name.
type Structs = BTreeMap<String, Lines>;

fn struct_line(name: &str, size: usize) -> String {
    format!("{name} {size}")
}

fn field_line(name: &str, field: &str, offset: usize, size: usize) -> String {
    format!("{name}.{field} {offset} {size}")
}

/// The lines of a struct of rust/src/shapes.rs, under its name in Rattle.
macro_rules! lines {
    ($name:literal, $type:ty, $($field:ident)*) => {{
        fn size_of_field<T>(_: fn(&$type) -> &T) -> usize {
            size_of::<T>()
        }
        let mut lines = vec![struct_line($name, size_of::<$type>())];
        $(lines.push(field_line(
            $name,
            stringify!($field),
            offset_of!($type, $field),
            size_of_field(|value| &value.$field),
        ));)*
        ($name.to_string(), lines)
    }};
}

fn rust_structs() -> Structs {
    Structs::from([
        lines!("Side", Side, start pitch slice_pitch x y),
        lines!("ConvertRegion", Region, source destination depth width height),
        lines!(
            "YuvSet", YuvSet,
            luma_gain luma_offset v_to_red u_to_green v_to_green u_to_blue chroma_centre
        ),
        lines!("PlaneLayout", PlaneLayout, width height depth_pitch stencil_pitch),
        lines!("PlanarYuvLayout", PlanarYuvLayout, pitch luma_rows chroma_rows total_bytes),
        lines!("FillPixel", FillPixel, bytes length),
    ])
}

/// What structs.c prints: a line with a dot belongs to the struct before it.
fn c_structs(text: &str) -> Structs {
    let mut structs = Structs::new();
    for line in text.lines() {
        let name = line.split(['.', ' ']).next().unwrap_or_default();
        let lines: &mut Lines = structs.entry(name.to_string()).or_default();
        lines.push(line.to_string());
    }
    structs
}

/// A declared struct: its name, its fields with their types, and the file that it stands in.
struct Declared {
    name: String,
    fields: Vec<(String, String)>,
    file: PathBuf,
}

/// The Rattle files below a folder, but for what a check left in a folder out.
fn rattle_files(folder: &Path, found: &mut Vec<PathBuf>) -> io::Result<()> {
    for entry in fs::read_dir(folder)? {
        let path = entry?.path();
        if path.is_dir() {
            if !path.ends_with("out") {
                rattle_files(&path, found)?;
            }
        } else if path.extension().is_some_and(|it| it == "rt") {
            found.push(path);
        }
    }
    Ok(())
}

/// The `#[repr(C)]` structs of a file: each field is a line `pub NAME: TYPE,`.
fn declared(file: &Path) -> Result<Vec<Declared>, String> {
    let text = fs::read_to_string(file).map_err(|error| format!("{}: {error}", file.display()))?;
    let mut lines = text
        .lines()
        .map(|line| line.split("//").next().unwrap_or(line).trim());
    let mut all = Vec::new();
    let mut crosses = false;
    while let Some(line) = lines.next() {
        crosses |= line == "#[repr(C)]";
        let Some(rest) = line.strip_prefix("pub struct ") else {
            crosses &= line.is_empty() || line.starts_with("#[");
            continue;
        };
        if !std::mem::take(&mut crosses) {
            continue;
        }
        let unread = |line: &str| format!("{}: cannot read `{line}`", file.display());
        let name = rest.strip_suffix('{').ok_or_else(|| unread(line))?.trim();
        let mut fields = Vec::new();
        for line in lines.by_ref().take_while(|line| *line != "}") {
            if line.is_empty() {
                continue;
            }
            let field = line
                .strip_prefix("pub ")
                .and_then(|it| it.strip_suffix(','));
            let (field, of) = field
                .and_then(|it| it.split_once(": "))
                .ok_or_else(|| unread(line))?;
            fields.push((field.to_string(), of.to_string()));
        }
        all.push(Declared {
            name: name.to_string(),
            fields,
            file: file.to_path_buf(),
        });
    }
    Ok(all)
}

/// Size and alignment of a type by C's rules for x86-64.
fn size_and_alignment(of: &str, all: &[Declared]) -> Result<(usize, usize), String> {
    if let Some(inside) = of.strip_prefix('[').and_then(|it| it.strip_suffix(']')) {
        let (element, count) = inside
            .split_once("; ")
            .ok_or(format!("cannot read `{of}`"))?;
        let count: usize = count.parse().map_err(|_| format!("cannot read `{of}`"))?;
        let (size, alignment) = size_and_alignment(element, all)?;
        return Ok((size * count, alignment));
    }
    let bytes = match of {
        "bool" | "u8" | "i8" => 1,
        "u16" | "i16" => 2,
        "u32" | "i32" | "f32" => 4,
        "u64" | "i64" | "f64" | "usize" | "isize" => 8,
        _ => {
            let name = of.rsplit("::").next().unwrap_or(of);
            let inner = all.iter().find(|it| it.name == name);
            let inner = inner.ok_or(format!("`{of}` is no #[repr(C)] struct"))?;
            let (size, alignment, _) = lay_out(inner, all)?;
            return Ok((size, alignment));
        }
    };
    Ok((bytes, bytes))
}

/// Size and alignment of a struct, and its lines.
fn lay_out(of: &Declared, all: &[Declared]) -> Result<(usize, usize, Lines), String> {
    let (mut end, mut greatest) = (0_usize, 1);
    let mut lines = Vec::new();
    for (field, field_type) in &of.fields {
        let (size, alignment) = size_and_alignment(field_type, all)
            .map_err(|error| format!("{}: {error}", of.file.display()))?;
        let offset = end.next_multiple_of(alignment);
        lines.push(field_line(&of.name, field, offset, size));
        end = offset + size;
        greatest = greatest.max(alignment);
    }
    let size = end.next_multiple_of(greatest);
    lines.insert(0, struct_line(&of.name, size));
    Ok((size, greatest, lines))
}

fn rattle_structs(crates: &Path) -> Result<Structs, String> {
    let mut files = Vec::new();
    rattle_files(crates, &mut files).map_err(|error| format!("{}: {error}", crates.display()))?;
    let mut all = Vec::new();
    for file in files {
        all.extend(declared(&file)?);
    }
    let mut structs = Structs::new();
    for one in &all {
        let (_, _, lines) = lay_out(one, &all)?;
        if structs.insert(one.name.clone(), lines).is_some() {
            return Err(format!(
                "{} is declared twice, once in {}",
                one.name,
                one.file.display()
            ));
        }
    }
    Ok(structs)
}

/// Prints where two languages differ; whether they do.
fn differ(structs: &Structs, whose: &str, others: &Structs, of_others: &str) -> bool {
    let mut found = false;
    let names: std::collections::BTreeSet<_> = structs.keys().chain(others.keys()).collect();
    for name in names {
        let (ours, theirs) = (structs.get(name), others.get(name));
        if ours != theirs {
            found = true;
            let shown = |lines: Option<&Lines>| match lines {
                Some(lines) => lines.join(", "),
                None => "has none".to_string(),
            };
            println!("structs: {name}\n  {whose}: {}", shown(ours));
            println!("  {of_others}: {}", shown(theirs));
        }
    }
    found
}

fn main() -> ExitCode {
    let Some(crates) = env::args_os().nth(1) else {
        eprintln!("structs: usage: structs CRATES < what structs.c prints");
        return ExitCode::from(2);
    };
    let (rattle, c) = match (
        rattle_structs(Path::new(&crates)),
        io::read_to_string(io::stdin()),
    ) {
        (Ok(rattle), Ok(text)) => (rattle, c_structs(&text)),
        (Err(error), _) => {
            println!("structs: {error}");
            return ExitCode::FAILURE;
        }
        (_, Err(error)) => {
            println!("structs: standard input: {error}");
            return ExitCode::FAILURE;
        }
    };
    let rust = rust_structs();
    let differs = [
        differ(&rust, "Rust", &c, "C"),
        differ(&rust, "Rust", &rattle, "Rattle"),
    ];
    if differs.contains(&true) {
        return ExitCode::FAILURE;
    }
    let lines: usize = rust.values().map(Vec::len).sum();
    println!(
        "structs: {} structs, {lines} sizes and offsets equal in C, Rust and Rattle",
        rust.len()
    );
    ExitCode::SUCCESS
}
