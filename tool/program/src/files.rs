//! Writing a file so that it is there as a whole, or not at all.

use std::ffi::OsString;
use std::fs::{self, File, OpenOptions};
use std::io::{self, Write};
use std::os::unix::fs::MetadataExt;
use std::path::{Path, PathBuf};

/// Where a result goes.
pub struct Target {
    path: PathBuf,
    /// What stands there is replaced.
    replace: bool,
}

impl Target {
    /// The place of a result, which is not `source`; what stands there is replaced only where `force` says so.
    pub fn new(path: &Path, source: &Path, force: bool) -> Result<Target, String> {
        let Some(there) = standing(path)? else {
            let path = path.to_path_buf();
            let replace = force;
            return Ok(Target { path, replace });
        };
        if fs::metadata(source).is_ok_and(|source| same(&source, &there.file)) {
            return Err("it is the file that is read".to_string());
        }
        if !there.file.is_file() {
            return Err("it is no regular file".to_string());
        }
        if !force {
            return Err("it exists (--force replaces it)".to_string());
        }
        // A link stays, and what it leads to is replaced.
        let path = match there.is_link {
            true => fs::canonicalize(path).map_err(|error| error.to_string())?,
            false => path.to_path_buf(),
        };
        Ok(Target {
            path,
            replace: true,
        })
    }

    /// Writes the bytes beside the target, syncs them, and gives them its name.
    pub fn write(&self, bytes: &[u8], told: impl Fn(u64)) -> io::Result<()> {
        let (mut file, beside) = self.beside()?;
        let written = self.put(&mut file, &beside, bytes, told);
        if written.is_err() || !self.replace {
            // Where it was linked to the target this name is no longer needed.
            let _ = fs::remove_file(&beside);
        }
        written
    }

    fn put(
        &self,
        file: &mut File,
        beside: &Path,
        bytes: &[u8],
        told: impl Fn(u64),
    ) -> io::Result<()> {
        if let Ok(there) = fs::metadata(&self.path) {
            file.set_permissions(there.permissions())?;
        }
        let mut done = 0;
        for part in bytes.chunks(1 << 24) {
            file.write_all(part)?;
            done += part.len() as u64;
            told(done);
        }
        file.sync_all()?;
        if self.replace {
            fs::rename(beside, &self.path)?;
        } else {
            self.name(beside)?;
        }
        sync_folder(self.folder())
    }

    /// Gives the file its name, unless another has it by now.
    fn name(&self, beside: &Path) -> io::Result<()> {
        match fs::hard_link(beside, &self.path) {
            Err(error) if error.kind() == io::ErrorKind::AlreadyExists => Err(error),
            // A file system without links.
            Err(_) if fs::symlink_metadata(&self.path).is_err() => fs::rename(beside, &self.path),
            linked => linked,
        }
    }

    fn folder(&self) -> &Path {
        match self.path.parent() {
            Some(folder) if folder != Path::new("") => folder,
            _ => Path::new("."),
        }
    }

    /// A new file beside the target.
    fn beside(&self) -> io::Result<(File, PathBuf)> {
        let name = self.path.file_name().ok_or(io::ErrorKind::InvalidInput)?;
        for attempt in 0..100 {
            let mut beside = OsString::from(".");
            beside.push(name);
            beside.push(format!(".{}-{attempt}.tmp", std::process::id()));
            let path = self.folder().join(beside);
            match OpenOptions::new().write(true).create_new(true).open(&path) {
                Ok(file) => return Ok((file, path)),
                Err(error) if error.kind() == io::ErrorKind::AlreadyExists => continue,
                Err(error) => return Err(error),
            }
        }
        Err(io::ErrorKind::AlreadyExists.into())
    }
}

/// The file at a path, or the one that a link there leads to.
struct Standing {
    file: fs::Metadata,
    is_link: bool,
}

/// Nothing where no file has the name. The name is looked at once, and only a link is followed: another program may make, replace or remove the file meanwhile.
fn standing(path: &Path) -> Result<Option<Standing>, String> {
    let named = match fs::symlink_metadata(path) {
        Ok(named) => named,
        Err(error) if error.kind() == io::ErrorKind::NotFound => return Ok(None),
        Err(error) => return Err(error.to_string()),
    };
    let is_link = named.is_symlink();
    let file = match is_link {
        true => fs::metadata(path),
        false => Ok(named),
    };
    match file {
        Ok(file) => Ok(Some(Standing { file, is_link })),
        Err(error) if error.kind() == io::ErrorKind::NotFound => {
            Err("it is a link to nothing".to_string())
        }
        Err(error) => Err(error.to_string()),
    }
}

fn same(a: &fs::Metadata, b: &fs::Metadata) -> bool {
    (a.dev(), a.ino()) == (b.dev(), b.ino())
}

/// So that the name outlives a power cut. Some file systems can't, and the file is complete all the same.
fn sync_folder(folder: &Path) -> io::Result<()> {
    if let Ok(folder) = File::open(folder) {
        let _ = folder.sync_all();
    }
    Ok(())
}

#[cfg(test)]
mod tests {
    use super::*;
    use std::sync::atomic::{AtomicBool, Ordering};

    /// Makes a file beside, gives it the name and removes it, until told to stop.
    fn come_and_go(path: &Path, beside: &Path, stop: &AtomicBool) {
        while !stop.load(Ordering::Relaxed) {
            fs::write(beside, b"a").unwrap();
            fs::rename(beside, path).unwrap();
            fs::remove_file(path).unwrap();
        }
    }

    /// Whatever another program does to the name meanwhile, with `--force` there is a target.
    #[test]
    fn a_file_that_comes_and_goes_is_a_target() {
        let folder = std::env::temp_dir().join(format!("dta-files-{}", std::process::id()));
        let _ = fs::remove_dir_all(&folder);
        fs::create_dir(&folder).unwrap();
        let path = folder.join("out.dta");
        let stop = AtomicBool::new(false);
        let made: Vec<Result<Target, String>> = std::thread::scope(|scope| {
            scope.spawn(|| come_and_go(&path, &folder.join("beside"), &stop));
            let source = folder.join("none");
            let made = (0..100_000).map(|_| Target::new(&path, &source, true));
            let made = made.collect();
            stop.store(true, Ordering::Relaxed);
            made
        });
        fs::remove_dir_all(&folder).unwrap();
        let reasons: Vec<String> = made.into_iter().filter_map(Result::err).collect();
        assert_eq!(reasons, Vec::<String>::new());
    }
}
