//! Files that are no expanded pictures.

use std::fs;
use std::path::Path;

/// The repository's root, from this crate's folder, and the folders beside it.
const FOLDERS: [&str; 2] = ["../..", "../../../shared/peer"];

/// What is made, and what is no part of the repository.
const PASSED_OVER: [&str; 3] = ["target", "out", ".git"];

/// No file of more bytes is read.
const MOST: u64 = 1 << 22;

/// Every file of the repository, pictures of other software in `data` among them, and minis of other software beside
/// it, if they are at hand.
pub fn visit(visit: &mut dyn FnMut(&[u8]) -> Result<(), String>) -> Result<(), String> {
    for folder in FOLDERS {
        let folder = Path::new(env!("CARGO_MANIFEST_DIR")).join(folder);
        if folder.is_dir() {
            of_folder(&folder, visit)?;
        }
    }
    Ok(())
}

fn of_folder(
    folder: &Path,
    visit: &mut dyn FnMut(&[u8]) -> Result<(), String>,
) -> Result<(), String> {
    let unread = |e| format!("{}: {e}", folder.display());
    for entry in fs::read_dir(folder).map_err(unread)? {
        let entry = entry.map_err(unread)?;
        let (path, metadata) = (entry.path(), entry.metadata().map_err(unread)?);
        let name = entry.file_name();
        if metadata.is_dir() && !PASSED_OVER.iter().any(|passed| name == *passed) {
            of_folder(&path, visit)?;
        } else if metadata.is_file() && metadata.len() <= MOST {
            visit(&fs::read(&path).map_err(unread)?)?;
        }
    }
    Ok(())
}
