//! The table's file: loaded at the start, and replaced by a file beside it that
//! is written whole and synced first. The folder is locked, as ./board locks
//! it, so nobody else loads or stores the table meanwhile.

use std::fs::{self, File, Metadata, OpenOptions};
use std::io::{ErrorKind, Read, Write};
use std::os::unix::fs::{fchown, MetadataExt, OpenOptionsExt, PermissionsExt};
use std::path::{Path, PathBuf};

use crate::border::library::Table;
use crate::border::system::try_lock;
use crate::clock::from_later;
use crate::failure::{because, say, Failure};
use crate::limits::LONGEST_FILE;

/// The rights that are kept.
const RIGHTS: u32 = 0o777;
const OWNER_WRITES: u32 = 0o200;

pub struct Keeper {
    path: PathBuf,
    /// The folder, open and locked.
    folder: File,
    /// What the file has; none before there is a file.
    stored: Option<Vec<u8>>,
    /// How many files were made beside the table.
    made: u32,
    /// Whether it was told that the group can't be kept.
    told: bool,
}

impl Keeper {
    /// Locks the folder and loads the table. Where there is no file, a fresh
    /// table is made and stored.
    pub fn open(name: &Path) -> Result<(Keeper, Table), Failure> {
        let path = behind_links(name)?;
        let folder = lock(&path)?;
        let mut keeper = Keeper {
            path,
            folder,
            stored: None,
            made: 0,
            told: false,
        };
        keeper.clean();
        let table = match keeper.rights()? {
            Some(rights) => {
                let warning = rights.modified().ok().and_then(from_later);
                warning.into_iter().for_each(say);
                keeper.load()?
            }
            None => keeper.make()?,
        };
        Ok((keeper, table))
    }

    fn load(&mut self) -> Result<Table, Failure> {
        let shown = self.path.display();
        let bytes = OpenOptions::new()
            .read(true)
            .write(true)
            .open(&self.path)
            .and_then(read_table)
            .map_err(|error| because(format!("can't read and write the table {shown}"), error))?;
        let table = Table::load(&bytes).ok_or_else(|| {
            format!(
                "{}\nThe file was left as it is, and nothing is served. Name another, or a file that is not there.",
                broken(&self.path, &bytes)
            )
        })?;
        self.stored = Some(bytes);
        // A folder in which no file can be made is found out before anything is served.
        let (beside, _) = self.make_beside(None)?;
        fs::remove_file(&beside)
            .map_err(|error| because(format!("can't remove {}", beside.display()), error))?;
        Ok(table)
    }

    fn make(&mut self) -> Result<Table, Failure> {
        say(format!(
            "there is no table {}; a fresh one is made",
            self.path.display()
        ));
        let table = Table::fresh();
        self.store(&table.store())?;
        Ok(table)
    }

    /// Whether the table's file has these bytes. They are compared, so that
    /// nothing has to be known about requests: calls that only count leave it as
    /// it is.
    pub fn has(&self, bytes: &[u8]) -> bool {
        self.stored.as_deref() == Some(bytes)
    }

    /// Stores the table's file. Where it fails, the file is what it was, or has
    /// all of these bytes.
    pub fn store(&mut self, bytes: &[u8]) -> Result<(), Failure> {
        let rights = self.rights()?;
        let (beside, file) = self.make_beside(rights.as_ref())?;
        let result = self
            .write(&file, rights.as_ref(), bytes)
            .and_then(|()| fs::rename(&beside, &self.path))
            .and_then(|()| self.folder.sync_all());
        if let Err(error) = result {
            let _ = fs::remove_file(&beside);
            let what = format!("can't store the table {}", self.path.display());
            return Err(because(what, error));
        }
        self.stored = Some(bytes.to_vec());
        Ok(())
    }

    /// Writes the whole file, and waits until it is on the disk.
    fn write(
        &mut self,
        mut file: &File,
        rights: Option<&Metadata>,
        bytes: &[u8],
    ) -> std::io::Result<()> {
        if let Some(rights) = rights {
            let given = give_rights(file, rights);
            if given.is_err() && !self.told {
                self.told = true;
                say("the table's group can't be kept: the file belongs to you alone");
            }
        }
        file.write_all(bytes)?;
        file.sync_all()
    }

    /// Makes a file beside the table. Where it replaces one, nobody else may
    /// read it until it has that one's rights.
    fn make_beside(&mut self, rights: Option<&Metadata>) -> Result<(PathBuf, File), Failure> {
        self.made = self.made.wrapping_add(1);
        let mut beside = self.path.clone().into_os_string();
        beside.push(format!(".new-{:08x}{:08x}", std::process::id(), self.made));
        let beside = PathBuf::from(beside);
        let mode = if rights.is_some() || self.stored.is_some() {
            0o600
        } else {
            0o666
        };
        OpenOptions::new()
            .write(true)
            .create_new(true)
            .mode(mode)
            .open(&beside)
            .map(|file| (beside.clone(), file))
            .map_err(|error| because(format!("can't make {}", beside.display()), error))
    }

    /// The owner and the rights of the file, if there is one. It has to be a
    /// file that its owner may write.
    fn rights(&self) -> Result<Option<Metadata>, Failure> {
        let shown = self.path.display();
        let rights = match fs::symlink_metadata(&self.path) {
            Ok(rights) => rights,
            Err(error) if error.kind() == ErrorKind::NotFound => return Ok(None),
            Err(error) => return Err(because(format!("can't look at the table {shown}"), error)),
        };
        if !rights.is_file() {
            return Err(format!("the table {shown} is not a file"));
        }
        if rights.mode() & OWNER_WRITES == 0 {
            return Err(format!("the table {shown} is read-only"));
        }
        Ok(Some(rights))
    }

    /// Removes the files that a killed run left beside the table.
    fn clean(&self) {
        let (Some(folder), Some(name)) = (self.path.parent(), self.path.file_name()) else {
            return;
        };
        let mut start = name.to_os_string();
        start.push(".new-");
        let Ok(entries) = fs::read_dir(or_here(folder)) else {
            return;
        };
        for entry in entries.flatten() {
            let name = entry.file_name();
            let left = name
                .as_encoded_bytes()
                .strip_prefix(start.as_encoded_bytes());
            if left.is_some_and(is_sixteen_digits) {
                let _ = fs::remove_file(entry.path());
            }
        }
    }
}

fn is_sixteen_digits(bytes: &[u8]) -> bool {
    bytes.len() == 16 && bytes.iter().all(|byte| b"0123456789abcdef".contains(byte))
}

/// A folder's name; the empty one is where we are.
fn or_here(folder: &Path) -> &Path {
    if folder.as_os_str().is_empty() {
        Path::new(".")
    } else {
        folder
    }
}

/// The file that links at this name lead to.
fn behind_links(name: &Path) -> Result<PathBuf, Failure> {
    let mut path = name.to_path_buf();
    for _ in 0..40 {
        match fs::read_link(&path) {
            Ok(target) => path = path.parent().unwrap_or(Path::new("")).join(target),
            Err(_) => return Ok(path),
        }
    }
    Err(format!("too many links at the table {}", name.display()))
}

/// Locks the folder of the table. The lock is on the folder, since the table's
/// file is replaced.
fn lock(path: &Path) -> Result<File, Failure> {
    let shown = path.display();
    if path.file_name().is_none() {
        return Err(format!("{shown} can't be the name of a table"));
    }
    let folder = File::open(or_here(path.parent().unwrap_or(Path::new(""))))
        .map_err(|error| because(format!("can't open the folder of the table {shown}"), error))?;
    match try_lock(&folder) {
        Ok(true) => Ok(folder),
        Ok(false) => Err(format!(
            "another run, a server or ./board, has the folder of the table {shown}\nEnd it first, or keep each served table in a folder of its own. Nothing was done."
        )),
        Err(error) => Err(because(format!("can't lock the folder of the table {shown}"), error)),
    }
}

/// Gives the file the owner, the group and the rights of the one that it
/// replaces. Where owner or group can't be given, it stays its owner's alone.
fn give_rights(file: &File, rights: &Metadata) -> std::io::Result<()> {
    fchown(file, Some(rights.uid()), Some(rights.gid()))
        .or_else(|_| fchown(file, None, Some(rights.gid())))?;
    file.set_permissions(fs::Permissions::from_mode(rights.mode() & RIGHTS))
}

/// The bytes of a table's file, and one more than a stored table has at most
/// where there are more.
pub fn read_table(file: File) -> std::io::Result<Vec<u8>> {
    let mut bytes = Vec::new();
    file.take(LONGEST_FILE as u64 + 1).read_to_end(&mut bytes)?;
    Ok(bytes)
}

/// Says which line of a file is not good: the first one with which its
/// beginning stores no table.
pub fn broken(path: &Path, bytes: &[u8]) -> Failure {
    let mut end = 0;
    let mut number = 0;
    for line in bytes.split_inclusive(|byte| *byte == b'\n') {
        end += line.len();
        number += 1;
        if Table::load(&bytes[..end]).is_none() {
            break;
        }
    }
    let number = number.max(1);
    let meaning = if number == 1 {
        "the form 01 and the last version issued"
    } else {
        "an entry: version, deadline, key and value"
    };
    format!(
        "refused 17: not a stored table: {}\nThe first line that is not good has the number {number}; it should be {meaning}, in digits.",
        path.display()
    )
}
