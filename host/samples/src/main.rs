//! `samples FOLDER`: writes the sample files, to see whether they are still those in the folder.

use std::path::Path;

fn main() -> std::io::Result<()> {
    let folder = std::env::args_os().nth(1).expect("usage: samples FOLDER");
    let folder = Path::new(&folder);
    std::fs::create_dir_all(folder.join("refused"))?;
    for sample in samples::all() {
        std::fs::write(folder.join(sample.name), sample.bytes)?;
    }
    Ok(())
}
