//! Which files are read: the root file, the five folders, and what they import; the build files and the policy's texts too.

use crate::rc::{Config, q_of};
use crate::stop::Stop;
use crate::text::{FastMap, expand, is_legal_name, is_legal_value, split_at_byte, trim};
use std::ffi::OsStr;
use std::fs;
use std::io::{self, ErrorKind, Read};
use std::os::unix::ffi::OsStrExt;
use std::path::Path;

pub const ROOT_FILE: &[u8] = b"/system/etc/init/hw/init.rc";
const FOLDERS: [&[u8]; 5] =
    [b"/system/etc/init", b"/system_ext/etc/init", b"/vendor/etc/init", b"/odm/etc/init", b"/product/etc/init"];
const BUILD_FILES: [&[u8]; 2] = [b"/system/build.prop", b"/vendor/build.prop"];
const MAX_FILE: usize = 1 << 20;
const MAX_FILES: u64 = 1024;
const MAX_NAMES: usize = 1024;
const MAX_RC_BYTES: u64 = 32 << 20;
const MAX_DEPTH: usize = 16;

/// The files of a folder, or some that are given.
pub struct Files {
    root: Vec<u8>,
    path: Vec<u8>,
    given: Vec<(&'static [u8], Vec<u8>)>,
}

fn is_absent(error: &io::Error) -> bool {
    use ErrorKind::{InvalidInput, NotADirectory, NotFound};
    matches!(error.kind(), NotFound | NotADirectory | InvalidInput)
}

fn absent_is_none<T>(outcome: io::Result<T>) -> Result<Option<T>, Stop> {
    match outcome {
        Ok(it) => Ok(Some(it)),
        Err(error) if is_absent(&error) => Ok(None),
        Err(_) => Err(Stop::Read),
    }
}

/// The first bytes of a file, at most so many.
fn read_front(file: &mut fs::File, limit: usize, data: &mut Vec<u8>) -> io::Result<()> {
    data.clear();
    file.take(limit as u64).read_to_end(data)?;
    Ok(())
}

impl Files {
    pub fn at(root: &[u8]) -> Files {
        Files { root: root.to_vec(), path: Vec::new(), given: Vec::new() }
    }

    /// These files, at these paths.
    pub fn of(given: Vec<(&'static [u8], Vec<u8>)>) -> Files {
        Files { root: Vec::new(), path: Vec::new(), given }
    }

    fn machine_path(&mut self, path: &[u8]) -> &Path {
        self.path.clear();
        self.path.extend_from_slice(&self.root);
        self.path.extend_from_slice(path);
        Path::new(OsStr::from_bytes(&self.path))
    }

    /// Reads a plain file of at most 1 MiB; false where there is none.
    pub fn read(&mut self, path: &[u8], data: &mut Vec<u8>) -> Result<bool, Stop> {
        if std::str::from_utf8(path).is_err() {
            return Ok(false);
        }
        if !self.given.is_empty() {
            let Some((_, text)) = self.given.iter().find(|it| it.0 == path) else {
                return Ok(false);
            };
            data.clear();
            data.extend_from_slice(text);
            return Ok(true);
        }
        let Some(mut file) = absent_is_none(fs::File::open(self.machine_path(path)))? else {
            return Ok(false);
        };
        if !file.metadata().map_err(|_| Stop::Read)?.is_file() {
            return Ok(false);
        }
        read_front(&mut file, MAX_FILE + 1, data).map_err(|_| Stop::Read)?;
        if data.len() > MAX_FILE { Err(Stop::TooLarge(MAX_FILE as u64 + 1)) } else { Ok(true) }
    }

    /// The names of a folder's plain files, ascending; none where it is no folder.
    fn list(&mut self, path: &[u8]) -> Result<Option<Vec<Vec<u8>>>, Stop> {
        if std::str::from_utf8(path).is_err() {
            return Ok(None);
        }
        if !self.given.is_empty() {
            return Ok(None);
        }
        let Some(entries) = absent_is_none(fs::read_dir(self.machine_path(path)))? else {
            return Ok(None);
        };
        let mut names = Vec::new();
        for entry in entries {
            let entry = entry.map_err(|_| Stop::Read)?;
            let kind = entry.file_type().map_err(|_| Stop::Read)?;
            let is_plain = if kind.is_symlink() {
                absent_is_none(fs::metadata(entry.path()))?.is_some_and(|it| it.is_file())
            } else {
                kind.is_file()
            };
            if is_plain {
                names.push(entry.file_name().into_string().map_err(|_| Stop::Read)?.into_bytes());
            }
        }
        if names.len() > MAX_NAMES {
            return Err(Stop::TooLarge(MAX_NAMES as u64 + 1));
        }
        names.sort_unstable();
        Ok(Some(names))
    }
}

/// A whole file outside the tree, at most so many bytes and one.
pub fn read_whole(path: &[u8], limit: usize) -> io::Result<Vec<u8>> {
    let mut data = Vec::new();
    let mut file = fs::File::open(OsStr::from_bytes(path))?;
    let size = file.metadata()?.len() as usize;
    data.reserve_exact(size.min(limit) + 1);
    read_front(&mut file, limit + 1, &mut data)?;
    Ok(data)
}

/// The last pair of each name.
pub type Pairs = FastMap<Box<[u8]>, Box<[u8]>>;

pub fn read_pairs(files: &mut Files, config: &mut Config) -> Result<Pairs, Stop> {
    let mut pairs = Pairs::default();
    let mut data = Vec::new();
    for path in BUILD_FILES {
        if !files.read(path, &mut data)? {
            continue;
        }
        let file = config.files.len() as u32;
        config.files.push(q_of(path));
        for (number, line) in crate::text::lines(&data).enumerate() {
            let line = trim(line);
            if line.is_empty() || line[0] == b'#' {
                continue;
            }
            match split_at_byte(line, b'=').map(|(name, value)| (trim(name), trim(value))) {
                Some((name, value)) if !name.starts_with(b"ctl.") => {
                    pairs.insert(Box::from(name), Box::from(value));
                }
                _ => config.say(file, number as u32 + 1, "BadProp"),
            }
        }
    }
    Ok(pairs)
}

pub struct Loader<'a> {
    pub files: &'a mut Files,
    pub pairs: &'a Pairs,
    pub config: &'a mut Config,
    data: Vec<u8>,
    reads: u64,
    bytes: u64,
    /// The files that are being imported.
    above: Vec<Vec<u8>>,
}

impl<'a> Loader<'a> {
    pub fn new(files: &'a mut Files, pairs: &'a Pairs, config: &'a mut Config) -> Loader<'a> {
        let data = Vec::with_capacity(64 * 1024);
        Loader { files, pairs, config, data, reads: 0, bytes: 0, above: Vec::new() }
    }

    pub fn load(mut self) -> Result<(), Stop> {
        if !self.read(ROOT_FILE.to_vec())? {
            return Err(Stop::NoInit);
        }
        for folder in FOLDERS {
            for name in self.files.list(folder)?.unwrap_or_default() {
                self.read([folder, b"/", &name].concat())?;
            }
        }
        Ok(())
    }

    /// Reads a file with all that it imports; false where it is absent.
    fn read(&mut self, path: Vec<u8>) -> Result<bool, Stop> {
        self.reads += 1;
        if self.reads > MAX_FILES {
            return Err(Stop::TooLarge(MAX_FILES + 1));
        }
        if !self.files.read(&path, &mut self.data)? {
            return Ok(false);
        }
        self.bytes += self.data.len() as u64;
        if self.bytes > MAX_RC_BYTES {
            return Err(Stop::TooLarge(self.bytes));
        }
        let file = self.config.files.len() as u32;
        self.config.files.push(q_of(&path));
        let imports = self.config.parse(file, &self.data);
        self.above.push(path);
        for import in imports {
            self.import(file, import.line, &import.path)?;
        }
        self.above.pop();
        Ok(true)
    }

    fn import(&mut self, file: u32, line: u32, written: &[u8]) -> Result<(), Stop> {
        let mut path = Vec::new();
        let pairs = self.pairs;
        let look = |name: &[u8], out: &mut Vec<u8>| {
            if let Some(value) = pairs.get(name)
                && is_legal_name(name)
                && is_legal_value(name, value)
            {
                out.extend_from_slice(value);
            }
        };
        if expand(written, &mut path, look).is_err() {
            self.config.say(file, line, "BadExpand");
            return Ok(());
        }
        if path.first() != Some(&b'/') {
            self.config.say(file, line, "NoFile");
            return Ok(());
        }
        while path.len() > 1 && path.ends_with(b"/") {
            path.pop();
        }
        match self.files.list(&path)? {
            None => self.import_file(file, line, path),
            Some(names) => {
                if !path.ends_with(b"/") {
                    path.push(b'/');
                }
                for name in names {
                    self.import_file(file, line, [&path[..], &name].concat())?;
                }
                Ok(())
            }
        }
    }

    fn import_file(&mut self, file: u32, line: u32, path: Vec<u8>) -> Result<(), Stop> {
        if self.above.contains(&path) {
            self.config.say(file, line, "Loop");
        } else if self.above.len() > MAX_DEPTH {
            self.config.say(file, line, "TooDeep");
        } else if !self.read(path)? {
            self.config.say(file, line, "NoFile");
        }
        Ok(())
    }
}
