//! Stands in for gix-tempfile: the removal of empty directories.

pub mod remove_dir {
    use std::fs;
    use std::io;
    use std::path::{Path, PathBuf};

    /// Removes a directory that holds nothing but directories, at any depth. It fails if a file is found.
    pub fn empty_depth_first(dir: PathBuf) -> io::Result<()> {
        for entry in fs::read_dir(&dir)? {
            let entry = entry?;
            if !entry.file_type()?.is_dir() {
                return Err(io::Error::other("a directory is not empty"));
            }
            empty_depth_first(entry.path())?;
        }
        fs::remove_dir(dir)
    }

    /// Removes a directory and those above it, as long as they are empty and lie beneath the boundary.
    pub fn empty_upward_until_boundary<'a>(target: &'a Path, boundary: &'a Path) -> io::Result<&'a Path> {
        for dir in target.ancestors().take_while(|dir| *dir != boundary && dir.starts_with(boundary)) {
            fs::remove_dir(dir)?;
        }
        Ok(boundary)
    }
}
