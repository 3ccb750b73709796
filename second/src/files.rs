// Files made by this program: written under a folder, or made again and compared with what
// stands there, byte by byte.

use std::io;
use std::path::Path;

/// A file by its name under the folder, and its bytes.
#[derive(Clone, Debug, PartialEq, Eq)]
pub struct File {
    pub name: String,
    pub bytes: Vec<u8>,
}

impl File {
    /// A file of a folder.
    pub fn new(folder: &str, name: &str, bytes: Vec<u8>) -> File {
        let name = format!("{folder}/{name}");
        File { name, bytes }
    }
}

/// Writes every file, with the folders it needs.
pub fn write(dir: &Path, files: &[File]) -> io::Result<()> {
    for file in files {
        let path = dir.join(&file.name);
        if let Some(folder) = path.parent() {
            std::fs::create_dir_all(folder)?;
        }
        std::fs::write(path, &file.bytes)?;
    }
    Ok(())
}

/// Holds every file to what stands in the folder; else the first file and byte that differ.
pub fn compare(dir: &Path, files: &[File]) -> Result<(), String> {
    for file in files {
        let theirs = std::fs::read(dir.join(&file.name))
            .map_err(|error| format!("{} cannot be read: {error}", file.name))?;
        if let Some(at) = first_difference(&file.bytes, &theirs) {
            return Err(format!(
                "{} differs at byte {at}: expected {}, found {}",
                file.name,
                shown(file.bytes.get(at)),
                shown(theirs.get(at)),
            ));
        }
    }
    Ok(())
}

/// The first byte at which the two differ; where one ends counts as a difference.
pub fn first_difference(ours: &[u8], theirs: &[u8]) -> Option<usize> {
    let shorter = ours.len().min(theirs.len());
    (0..shorter)
        .find(|&at| ours[at] != theirs[at])
        .or((ours.len() != theirs.len()).then_some(shorter))
}

/// A byte, or the end of the file in its place.
pub fn shown(byte: Option<&u8>) -> String {
    byte.map_or("the end".to_string(), u8::to_string)
}
