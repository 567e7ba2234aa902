//! Outputs that are whole or not there: a file is written beside its name and
//! renamed when all of it stands.

use std::ffi::{OsStr, OsString};
use std::fs::{self, File, OpenOptions};
use std::io::{self, BufWriter, Stdout, Write};
use std::os::unix::ffi::OsStrExt;
use std::path::{Path, PathBuf};

/// A name's most bytes are 255 on most file systems; this leaves room for what
/// is put behind it.
const LONGEST_NAME: usize = 200;

pub enum Output {
    Standard(BufWriter<Stdout>),
    /// A pipe or a device, in whose place no file may come.
    Straight(BufWriter<File>),
    Beside(BufWriter<File>, Part),
}

/// A file that isn't finished, and goes away if it never is. Where the process
/// is killed it stays, as `NAME.PID-0.part`.
pub struct Part {
    path: PathBuf,
    target: PathBuf,
    finished: bool,
}

impl Drop for Part {
    fn drop(&mut self) {
        if !self.finished {
            let _ = fs::remove_file(&self.path);
        }
    }
}

impl Output {
    /// `-` is standard output.
    pub fn create(name: &OsStr) -> io::Result<Output> {
        if name == "-" {
            return Ok(Output::Standard(BufWriter::new(io::stdout())));
        }
        let there = match fs::metadata(name) {
            Ok(there) => Some(there),
            Err(error) if error.kind() == io::ErrorKind::NotFound => None,
            Err(error) => return Err(error),
        };
        let mut permissions = None;
        if let Some(there) = there {
            // Opening says whether it may be written, which renaming wouldn't ask.
            let file = OpenOptions::new().write(true).open(name)?;
            if !there.is_file() {
                return Ok(Output::Straight(BufWriter::new(file)));
            }
            permissions = Some(there.permissions());
        }
        let (file, part) = beside(behind_links(Path::new(name))?)?;
        if let Some(permissions) = permissions {
            file.set_permissions(permissions)?;
        }
        Ok(Output::Beside(BufWriter::new(file), part))
    }

    /// Gives a file its name, once its bytes are on the disk, and has the name
    /// there too, where the file system can do that.
    pub fn finish(mut self) -> io::Result<()> {
        self.flush()?;
        if let Output::Beside(file, part) = &mut self {
            file.get_ref().sync_all()?;
            fs::rename(&part.path, &part.target)?;
            part.finished = true;
            let _ = File::open(folder(&part.target)).and_then(|folder| folder.sync_all());
        }
        Ok(())
    }

    fn writer(&mut self) -> &mut dyn Write {
        match self {
            Output::Standard(output) => output,
            Output::Straight(file) | Output::Beside(file, _) => file,
        }
    }
}

impl Write for Output {
    fn write(&mut self, bytes: &[u8]) -> io::Result<usize> {
        self.writer().write(bytes)
    }

    fn flush(&mut self) -> io::Result<()> {
        self.writer().flush()
    }
}

/// The name behind symbolic links, there or not: a renamed file takes its
/// place, and not a link's.
pub fn behind_links(name: &Path) -> io::Result<PathBuf> {
    let mut path = name.to_owned();
    for _ in 0..40 {
        match fs::read_link(&path) {
            Ok(next) => path = folder(&path).join(next),
            Err(_) => return Ok(path),
        }
    }
    Err(io::Error::other("too many symbolic links"))
}

/// The folder of a name, `.` if it says none.
pub fn folder(path: &Path) -> &Path {
    match path.parent() {
        Some(folder) if !folder.as_os_str().is_empty() => folder,
        _ => Path::new("."),
    }
}

fn beside(target: PathBuf) -> io::Result<(File, Part)> {
    let name = target
        .file_name()
        .ok_or_else(|| io::Error::other("is no name for a file"))?;
    let short = &name.as_bytes()[..name.len().min(LONGEST_NAME)];
    let mut number = 0;
    loop {
        let mut part = OsString::from(OsStr::from_bytes(short));
        part.push(format!(".{}-{number}.part", std::process::id()));
        let path = folder(&target).join(part);
        match OpenOptions::new().write(true).create_new(true).open(&path) {
            Ok(file) => {
                let finished = false;
                let part = Part {
                    path,
                    target,
                    finished,
                };
                return Ok((file, part));
            }
            Err(error) if error.kind() == io::ErrorKind::AlreadyExists => number += 1,
            Err(error) => return Err(error),
        }
    }
}
