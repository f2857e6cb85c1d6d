//! Writes a file whole or not at all.

use std::fs::{self, File, OpenOptions};
use std::io::{self, Write};
use std::path::{Path, PathBuf};

/// Puts bytes in the place of a file: they are written beside it, and that file is then renamed.
/// What is no plain file, such as a device or a pipe, is written as it is.
pub fn replace(path: &Path, bytes: &[u8]) -> io::Result<()> {
    // a link stays one
    let path = fs::canonicalize(path).unwrap_or(path.to_owned());
    let before = fs::metadata(&path).ok();
    if before.as_ref().is_some_and(|before| !before.is_file()) {
        return OpenOptions::new().write(true).open(&path)?.write_all(bytes);
    }
    let beside = beside(&path)?;
    let mut file = OpenOptions::new().write(true).create_new(true).open(&beside)?;
    let written = write_whole(&mut file, bytes, before.map(|before| before.permissions()))
        .and_then(|()| fs::rename(&beside, &path));
    if written.is_err() {
        // what failed is said; this file only is in the way
        let _ = fs::remove_file(&beside);
    }
    written
}

fn write_whole(
    file: &mut File,
    bytes: &[u8],
    permissions: Option<fs::Permissions>,
) -> io::Result<()> {
    if let Some(permissions) = permissions {
        file.set_permissions(permissions)?;
    }
    file.write_all(bytes)?;
    file.sync_all()
}

/// A name beside the file that no other run uses.
fn beside(path: &Path) -> io::Result<PathBuf> {
    let mut name = std::ffi::OsString::from(".");
    name.push(path.file_name().ok_or(io::ErrorKind::IsADirectory)?);
    name.push(format!(".{}", std::process::id()));
    Ok(path.with_file_name(name))
}
