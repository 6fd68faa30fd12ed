//! Writing of the files that are asked for: each another one, and none the floor that was read.

use std::fs::{self, Metadata};
use std::io::{self, Write};
use std::os::unix::fs::MetadataExt;
use std::path::{Path, PathBuf};

use hallview::characters::shown;

/// Standard input and output as files.
const STANDARD_INPUT: &str = "/dev/stdin";
const STANDARD_OUTPUT: &str = "/dev/stdout";
/// The option that names a folder, which is made if it is not there.
pub const FOLDER: &str = "--pictures";
/// The most links that are followed from one to the next.
const MOST_LINKS: usize = 40;

/// What is written, where, and by which option.
pub struct Output<'a> {
    option: &'static str,
    /// - is standard output.
    name: String,
    /// Made when it is written.
    bytes: Box<dyn Fn() -> Vec<u8> + 'a>,
}

/// What two names have in common if they lead to the same file.
#[derive(PartialEq, Eq)]
enum Identity {
    /// Device and number of a file that is there.
    There(u64, u64),
    /// Where a file would come to stand.
    New(PathBuf),
}

impl<'a> Output<'a> {
    pub fn new(option: &'static str, name: &str, bytes: impl Fn() -> Vec<u8> + 'a) -> Output<'a> {
        Output {
            option,
            name: name.to_string(),
            bytes: Box::new(bytes),
        }
    }

    pub fn is_standard(&self) -> bool {
        self.name == "-"
    }

    fn path(&self) -> &Path {
        Path::new(if self.is_standard() {
            STANDARD_OUTPUT
        } else {
            &self.name
        })
    }

    fn write(&self) -> Result<(), String> {
        if self.is_standard() {
            return print(&(self.bytes)());
        }
        let written = match self.option {
            FOLDER => fs::create_dir_all(folder_of(self.path())),
            _ => Ok(()),
        };
        written
            .and_then(|()| fs::write(&self.name, (self.bytes)()))
            .map_err(|error| format!("{}: {error}", shown(&self.name)))
    }
}

/// Writes all outputs, or none of them if two would be one file, or one the floor.
pub fn write(floor: &str, outputs: &[Output]) -> Result<(), String> {
    check_floor(floor, outputs)?;
    check_each_other(outputs)?;
    outputs.iter().try_for_each(Output::write)
}

pub fn print(bytes: &[u8]) -> Result<(), String> {
    let mut out = io::stdout().lock();
    out.write_all(bytes)
        .and_then(|()| out.flush())
        .map_err(|error| format!("standard output: {error}"))
}

/// No output may overwrite the floor, by whatever name.
fn check_floor(floor: &str, outputs: &[Output]) -> Result<(), String> {
    let path = if floor == "-" { STANDARD_INPUT } else { floor };
    // A terminal may well be read and written.
    let Some(read) = fs::metadata(path).ok().filter(Metadata::is_file) else {
        return Ok(());
    };
    let is_floor = |output: &&Output| identity(output.path()) == there(&read);
    match outputs.iter().find(is_floor) {
        None => Ok(()),
        Some(output) => Err(format!(
            "{} {} would overwrite the floor that is read",
            output.option,
            shown(&output.name)
        )),
    }
}

fn check_each_other(outputs: &[Output]) -> Result<(), String> {
    let identities: Vec<Identity> = outputs.iter().map(|o| identity(o.path())).collect();
    for (at, output) in outputs.iter().enumerate() {
        if let Some(first) = (0..at).find(|first| identities[*first] == identities[at]) {
            let name = if output.is_standard() {
                "standard output".to_string()
            } else {
                shown(&output.name)
            };
            return Err(format!(
                "{} and {} would both write {name}",
                outputs[first].option, output.option
            ));
        }
    }
    Ok(())
}

fn there(file: &Metadata) -> Identity {
    Identity::There(file.dev(), file.ino())
}

/// Links are followed, also one to a file that is not there yet.
fn identity(path: &Path) -> Identity {
    if let Ok(file) = fs::metadata(path) {
        return there(&file);
    }
    let mut path = path.to_path_buf();
    for _ in 0..MOST_LINKS {
        let Ok(target) = fs::read_link(&path) else {
            break;
        };
        path = folder_of(&path).join(target);
    }
    let folder = folder_of(&path);
    let folder = fs::canonicalize(&folder).unwrap_or(folder);
    Identity::New(folder.join(path.file_name().unwrap_or_default()))
}

fn folder_of(path: &Path) -> PathBuf {
    match path.parent() {
        Some(parent) if parent != Path::new("") => parent.to_path_buf(),
        _ => PathBuf::from("."),
    }
}
