//! `vectors DIRECTORY`: writes every vector to a file of its own, v001, v002 .., and beside them
//! `names`, `expected` and `about`, which have a line for each in the same order. With `lined`
//! behind the directory, the files are those with CR LF behind every record.

use std::fmt::Write;
use std::path::Path;
use std::{fs, io};
use vectors::Vector;

fn main() {
    let arguments: Vec<String> = std::env::args().skip(1).collect();
    let arguments: Vec<&str> = arguments.iter().map(String::as_str).collect();
    let (directory, vectors) = match arguments[..] {
        [directory] => (directory, vectors::all()),
        [directory, "lined"] => (directory, vectors::lined()),
        _ => {
            eprintln!("usage: vectors DIRECTORY [lined]");
            std::process::exit(2);
        }
    };
    match write_all(Path::new(directory), &vectors) {
        Ok(count) => println!("{count} vectors"),
        Err(error) => {
            eprintln!("vectors: {error}");
            std::process::exit(1);
        }
    }
}

fn write_all(directory: &Path, vectors: &[Vector]) -> io::Result<usize> {
    let (mut names, mut expected, mut about) = (String::new(), String::new(), String::new());
    fs::create_dir_all(directory)?;
    for (vector, number) in vectors.iter().zip(1..) {
        let name = format!("v{number:03}");
        fs::write(directory.join(&name), &vector.file)?;
        writeln!(names, "{name}").expect("a string takes everything");
        writeln!(expected, "{}", vector.line).expect("a string takes everything");
        writeln!(about, "{name} {}", vector.about).expect("a string takes everything");
    }
    fs::write(directory.join("names"), names)?;
    fs::write(directory.join("expected"), expected)?;
    fs::write(directory.join("about"), about)?;
    Ok(vectors.len())
}
