//! `picture FOLDER` prints the picture of the day in journal.bin, table.bin and bad.bin of the folder. As
//! for the program, a missing file counts as empty. `picture --layers FILE` prints the picture of the layers
//! in a file such as crates.txt.

use std::io::{self, Write};
use std::path::PathBuf;
use std::process::ExitCode;
use std::{env, fs};

fn load(folder: &str, name: &str) -> io::Result<Vec<u8>> {
    let path: PathBuf = [folder, name].iter().collect();
    match fs::read(&path) {
        Err(error) if error.kind() == io::ErrorKind::NotFound => Ok(Vec::new()),
        Err(error) => Err(io::Error::new(
            error.kind(),
            format!("{}: {error}", path.display()),
        )),
        read => read,
    }
}

fn run(folder: &str) -> io::Result<()> {
    let [journal, table, bad] =
        ["journal.bin", "table.bin", "bad.bin"].map(|name| load(folder, name));
    let picture = picture::picture(&journal?, &table?, &bad?);
    io::stdout().write_all(picture.as_bytes())
}

fn run_layers(file: &str) -> io::Result<()> {
    let text = fs::read_to_string(file)?;
    io::stdout().write_all(picture::layers(&text).as_bytes())
}

fn main() -> ExitCode {
    let arguments: Vec<String> = env::args().skip(1).collect();
    let arguments: Vec<&str> = arguments.iter().map(String::as_str).collect();
    let done = match arguments[..] {
        ["--layers", file] => run_layers(file),
        [folder] => run(folder),
        _ => {
            eprintln!("usage: picture FOLDER, or picture --layers FILE");
            return ExitCode::from(2);
        }
    };
    match done {
        Ok(()) => ExitCode::SUCCESS,
        Err(error) => {
            eprintln!("picture: {error}");
            ExitCode::FAILURE
        }
    }
}
