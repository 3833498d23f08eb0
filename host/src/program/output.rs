//! Output: to standard output, or to a file that is put in place whole.

use super::arguments::{Arguments, FORCE, OUTPUT};
use super::stop::{reason, Stop};
use std::fs::{self, File};
use std::io::{self, ErrorKind, Write};
use std::path::{Path, PathBuf};
use std::process;

#[derive(Default)]
pub struct Output {
    file: Option<Target>,
}

struct Target {
    /// As it was given.
    name: String,
    /// Where its links lead.
    path: PathBuf,
    force: bool,
    bytes: Vec<u8>,
}

impl Output {
    pub fn standard() -> Self {
        Output::default()
    }

    /// What `-o` names, or standard output. A file that may not be replaced is told before any work is done.
    pub fn new(arguments: &Arguments) -> Result<Self, Stop> {
        let file = match arguments.value(&OUTPUT) {
            Some(name) if name != "-" => Some(Target::new(Path::new(name), arguments.has(&FORCE))?),
            _ => None,
        };
        Ok(Output { file })
    }

    pub fn is_standard(&self) -> bool {
        self.file.is_none()
    }

    pub fn write(&mut self, bytes: &[u8]) -> Result<(), Stop> {
        if let Some(target) = &mut self.file {
            target.bytes.extend(bytes);
            return Ok(());
        }
        let mut out = io::stdout().lock();
        let written = out.write_all(bytes).and_then(|()| out.flush());
        written.map_err(|error| match error.kind() {
            ErrorKind::BrokenPipe => Stop::ClosedPipe,
            _ => Stop::failed(format!("standard output: {}", reason(&error))),
        })
    }

    /// Puts the file in place.
    pub fn finish(self) -> Result<(), Stop> {
        match self.file {
            Some(target) => target.put(),
            None => Ok(()),
        }
    }
}

impl Target {
    fn new(name: &Path, force: bool) -> Result<Self, Stop> {
        let target = Target {
            name: name.display().to_string(),
            path: followed(name),
            force,
            bytes: Vec::new(),
        };
        match fs::metadata(name) {
            Ok(there) if !there.is_file() => {
                Err(target.failed("is no regular file; leave -o out to write to standard output"))
            }
            Ok(_) if !force => Err(target.is_there()),
            Err(error) if error.kind() != ErrorKind::NotFound => {
                Err(target.failed(&reason(&error)))
            }
            _ => Ok(target),
        }
    }

    fn failed(&self, what: &str) -> Stop {
        Stop::failed(format!("{}: {what}", self.name))
    }

    fn is_there(&self) -> Stop {
        self.failed("is there already and is kept; --force replaces it")
    }

    fn put(&self) -> Result<(), Stop> {
        let placed = self.create_beside().and_then(|(part, file)| {
            let placed = self.fill(file).and_then(|()| self.place(&part));
            if placed.is_err() {
                // What failed is what is told.
                let _ = fs::remove_file(&part);
            }
            placed
        });
        placed.map_err(|error| match error.kind() {
            ErrorKind::AlreadyExists => self.is_there(),
            _ => self.failed(&reason(&error)),
        })
    }

    /// A new file in the same folder. An earlier run that was killed may have left one of the same name.
    fn create_beside(&self) -> io::Result<(PathBuf, File)> {
        let folder = self.path.parent().unwrap_or(Path::new(""));
        let mut number = 0;
        loop {
            let part = folder.join(format!(".finder-{}-{number}.part", process::id()));
            match File::create_new(&part) {
                Err(error) if error.kind() == ErrorKind::AlreadyExists => number += 1,
                made => return made.map(|file| (part, file)),
            }
        }
    }

    fn fill(&self, mut file: File) -> io::Result<()> {
        if let Ok(there) = fs::metadata(&self.path) {
            file.set_permissions(there.permissions())?;
        }
        file.write_all(&self.bytes)?;
        file.sync_all()
    }

    fn place(&self, made: &Path) -> io::Result<()> {
        if self.force {
            return fs::rename(made, &self.path);
        }
        match fs::hard_link(made, &self.path) {
            Ok(()) => fs::remove_file(made),
            Err(error) if error.kind() == ErrorKind::AlreadyExists => Err(error),
            // Some file systems have no links.
            Err(_) if self.path.exists() => Err(ErrorKind::AlreadyExists.into()),
            Err(_) => fs::rename(made, &self.path),
        }
    }
}

/// Where symbolic links lead, also to a file that isn't there yet.
fn followed(name: &Path) -> PathBuf {
    const MOST_LINKS: usize = 40;
    let mut path = name.to_path_buf();
    for _ in 0..MOST_LINKS {
        match fs::read_link(&path) {
            Ok(next) => path = path.parent().unwrap_or(Path::new("")).join(next),
            Err(_) => break,
        }
    }
    path
}
