//! What a run leaves behind: what it prints, and files, none of which is ever there in part.
use crate::ending::{unasked, Run};
use std::fs::{self, File, Metadata};
use std::io::{self, ErrorKind, Write};
use std::path::{Path, PathBuf};

/// Prints the whole of an answer. A reader that has had enough, as `head` has, is no fault: the exit status still says the answer.
pub fn print(text: &str) -> Run<()> {
    print_bytes(text.as_bytes())
}

fn print_bytes(bytes: &[u8]) -> Run<()> {
    let mut out = io::stdout().lock();
    match out.write_all(bytes).and_then(|()| out.flush()) {
        Err(why) if why.kind() == ErrorKind::BrokenPipe => Ok(()),
        done => done.map_err(|why| unasked(format!("the answer cannot be printed: {why}"))),
    }
}

/// Says a line beside the answer, and one alone, whatever a file is named; where nobody can hear it, it is lost.
pub fn note(line: &str) {
    let one = |c: char| if c.is_control() { c.escape_default().to_string() } else { c.to_string() };
    let _ = writeln!(io::stderr(), "flowgoal: {}", line.chars().map(one).collect::<String>());
}

/// Writes a file, an existing one only where that was asked for.
pub fn write(file: &str, bytes: &[u8], overwrite: bool) -> Run<()> {
    let cannot = |why: io::Error| unasked(format!("{file} cannot be written: {why}"));
    if file == "/dev/stdout" {
        return print_bytes(bytes);
    }
    let exists = || unasked(format!("{file} exists: it is written over only with --overwrite"));
    match fs::metadata(file) {
        Ok(old) if old.is_dir() => Err(unasked(format!("{file} cannot be written: it is a directory"))),
        // a device or a pipe is written to as it is: nothing can be put in its place
        Ok(old) if !old.is_file() => File::options().write(true).open(file).and_then(|mut f| f.write_all(bytes)).map_err(cannot),
        Ok(_) if !overwrite => Err(exists()),
        Ok(old) => replace(&fs::canonicalize(file).map_err(cannot)?, bytes, Some(old)).map_err(cannot),
        Err(_) => match replace(Path::new(file), bytes, None) {
            Err(why) if why.kind() == ErrorKind::AlreadyExists => Err(exists()),
            done => done.map_err(cannot),
        },
    }
}

/// Writes the bytes beside the file and then puts them in its place, so that it is never there in part. Where there was none before,
/// one that has come into being meanwhile is kept.
fn replace(file: &Path, bytes: &[u8], old: Option<Metadata>) -> io::Result<()> {
    let beside = beside(file)?;
    let written = File::create_new(&beside).and_then(|mut f| {
        f.write_all(bytes)?;
        f.sync_all()
    });
    let done = written.and_then(|()| match old {
        Some(old) => fs::set_permissions(&beside, old.permissions()).and_then(|()| fs::rename(&beside, file)),
        None => put(&beside, file),
    });
    let _ = fs::remove_file(&beside);
    done
}

/// A name takes the place of no other file; a file system without links has to do with a look before.
fn put(beside: &Path, file: &Path) -> io::Result<()> {
    match fs::hard_link(beside, file) {
        Err(why) if why.kind() != ErrorKind::AlreadyExists => match file.symlink_metadata() {
            Ok(_) => Err(ErrorKind::AlreadyExists.into()),
            Err(_) => fs::rename(beside, file),
        },
        done => done,
    }
}

/// A name in the same folder, so that it can be renamed.
fn beside(file: &Path) -> io::Result<PathBuf> {
    let name = file.file_name().ok_or(ErrorKind::InvalidInput)?;
    Ok(file.with_file_name(format!(".{}.{}.part", name.to_string_lossy(), std::process::id())))
}
