//! The memory files of one drive: NN.image, and NN.image.before, the one that it took the place of.
//! Whenever the power goes, a whole image is there.

use std::fs::{self, File};
use std::io::{self, ErrorKind, Read, Write};
use std::path::{Path, PathBuf};

/// An image is far shorter; more is not read.
const MOST: u64 = 16_384;

pub struct Store {
    directory: PathBuf,
    name: String,
}

impl Store {
    pub fn new(directory: &Path, address: u8) -> Store {
        Store { directory: directory.to_path_buf(), name: format!("{address:02}.image") }
    }

    pub fn path(&self) -> PathBuf {
        self.directory.join(&self.name)
    }

    fn beside(&self, ending: &str) -> PathBuf {
        self.directory.join(format!("{}.{ending}", self.name))
    }

    /// The bytes that are kept, none for a drive that has never kept any. A sentence where the file
    /// should be there, cannot be read or is too long.
    pub fn load(&self) -> Result<Option<Vec<u8>>, String> {
        let (path, before) = (self.path(), self.beside("before"));
        let file = match File::open(&path) {
            Ok(file) => file,
            Err(error) if error.kind() == ErrorKind::NotFound => {
                return match fs::symlink_metadata(&before) {
                    Err(error) if error.kind() == ErrorKind::NotFound => Ok(None),
                    _ => Err(self.missing()),
                };
            }
            Err(error) => return Err(self.unreadable(&error)),
        };
        let mut bytes = Vec::new();
        file.take(MOST + 1).read_to_end(&mut bytes).map_err(|error| self.unreadable(&error))?;
        if bytes.len() as u64 > MOST {
            return Err(self.no_image());
        }
        Ok(Some(bytes))
    }

    fn missing(&self) -> String {
        let (path, before) = (self.path(), self.beside("before"));
        format!(
            "{} is missing, and {} is there: copy it to {} to go on with that memory, or move it \
             away for a fresh drive",
            path.display(),
            before.display(),
            path.display()
        )
    }

    fn unreadable(&self, error: &io::Error) -> String {
        let path = self.path();
        format!(
            "{} cannot be read: {error}; make it readable, or move it away for a fresh drive",
            path.display()
        )
    }

    /// The sentence for bytes that are no image.
    pub fn no_image(&self) -> String {
        let (path, before) = (self.path(), self.beside("before"));
        let cure = match before.is_file() {
            true => format!(
                "copy {} in its place to go on with the memory before, or move both away for a \
                 fresh drive",
                before.display()
            ),
            false => "put a good image in its place, or move it away for a fresh drive".to_string(),
        };
        format!("{} is no memory image: {cure}", path.display())
    }

    /// Keeps an image: a new file aside, the present one kept as the one before, then renamed.
    pub fn save(&self, image: &[u8]) -> io::Result<()> {
        let new = self.beside("new");
        let written = self.write_new(&new, image).and_then(|()| self.keep_before());
        if let Err(error) = written.and_then(|()| fs::rename(&new, self.path())) {
            // What is left of it takes room on a disk that may be full.
            let _ = fs::remove_file(&new);
            return Err(error);
        }
        File::open(&self.directory)?.sync_all()
    }

    fn write_new(&self, new: &Path, image: &[u8]) -> io::Result<()> {
        let mut file = File::create(new)?;
        file.write_all(image)?;
        file.sync_all()
    }

    /// The present file stays where it is: the one before is a second link to it, or a copy where
    /// the file system has no links.
    fn keep_before(&self) -> io::Result<()> {
        let (path, before) = (self.path(), self.beside("before"));
        if !path.exists() {
            return Ok(());
        }
        match fs::remove_file(&before) {
            Err(error) if error.kind() != ErrorKind::NotFound => return Err(error),
            _ => {}
        }
        if fs::hard_link(&path, &before).is_ok() {
            return Ok(());
        }
        fs::copy(&path, &before)?;
        File::open(&before)?.sync_all()
    }
}

#[cfg(test)]
mod tests {
    use super::*;

    /// A directory that is removed with its files.
    struct Directory(PathBuf);

    impl Directory {
        fn new(name: &str) -> Directory {
            let path = std::env::temp_dir().join(format!("gateway-{}-{name}", std::process::id()));
            fs::create_dir(&path).unwrap();
            Directory(path)
        }

        fn names(&self) -> Vec<String> {
            let entries = fs::read_dir(&self.0).unwrap();
            let mut names: Vec<String> =
                entries.map(|entry| entry.unwrap().file_name().into_string().unwrap()).collect();
            names.sort();
            names
        }
    }

    impl Drop for Directory {
        fn drop(&mut self) {
            let _ = fs::remove_dir_all(&self.0);
        }
    }

    #[test]
    fn images_are_kept_with_the_one_before() {
        let directory = Directory::new("kept");
        let store = Store::new(&directory.0, 7);
        assert_eq!(store.load(), Ok(None));
        store.save(b"one").unwrap();
        assert_eq!(directory.names(), ["07.image"]);
        store.save(b"two").unwrap();
        store.save(b"three").unwrap();
        assert_eq!(directory.names(), ["07.image", "07.image.before"]);
        assert_eq!(store.load(), Ok(Some(b"three".to_vec())));
        assert_eq!(fs::read(directory.0.join("07.image.before")).unwrap(), b"two");
    }

    #[test]
    fn a_save_cut_short_leaves_the_present_image() {
        let directory = Directory::new("cut");
        let store = Store::new(&directory.0, 7);
        store.save(b"one").unwrap();
        store.write_new(&store.beside("new"), b"to").unwrap();
        assert_eq!(store.load(), Ok(Some(b"one".to_vec())));
        store.keep_before().unwrap();
        assert_eq!(store.load(), Ok(Some(b"one".to_vec())));
        store.save(b"two").unwrap();
        assert_eq!(store.load(), Ok(Some(b"two".to_vec())));
        assert_eq!(directory.names(), ["07.image", "07.image.before"]);
    }

    #[test]
    fn a_missing_image_with_one_before_is_no_fresh_drive() {
        let directory = Directory::new("missing");
        let store = Store::new(&directory.0, 7);
        store.save(b"one").unwrap();
        store.save(b"two").unwrap();
        fs::remove_file(store.path()).unwrap();
        assert!(store.load().unwrap_err().contains("07.image.before is there"));
    }

    #[test]
    fn what_cannot_be_read_is_named() {
        let directory = Directory::new("unreadable");
        let store = Store::new(&directory.0, 7);
        fs::create_dir(store.path()).unwrap();
        assert!(store.load().unwrap_err().contains("07.image cannot be read"));
        fs::remove_dir(store.path()).unwrap();
        fs::write(store.path(), vec![0; 20_000]).unwrap();
        assert!(store.load().unwrap_err().contains("07.image is no memory image"));
    }

    #[test]
    fn a_save_that_fails_leaves_nothing_behind() {
        let directory = Directory::new("fails");
        let store = Store::new(&directory.0, 7);
        fs::create_dir_all(store.path().join("in the way")).unwrap();
        assert!(store.save(b"one").is_err());
        assert_eq!(directory.names(), ["07.image"]);
    }
}
