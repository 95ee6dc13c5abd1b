//! The model's file tree: a hash map from paths to nodes.

use crate::text::FastMap;
use std::rc::Rc;

#[derive(Clone, Copy, PartialEq)]
enum Kind {
    Dir,
    File,
    Link,
}

struct Node {
    kind: Kind,
    mode: u16,
    /// How many nodes a directory has directly in it.
    children: u32,
    content: Rc<[u8]>,
}

pub enum Change<'a> {
    Write(&'a [u8]),
    Copy(&'a [u8]),
    Mkdir(u16),
    Rm,
    Rmdir,
    Symlink(&'a [u8]),
    Chmod(u16),
}

/// Paths stand without a last `/`, so the root is the empty text. Each node's parent is a directory of the tree.
pub struct Tree {
    nodes: FastMap<Box<[u8]>, Node>,
    key: Vec<u8>,
    from: Vec<u8>,
    missing: Vec<usize>,
    empty: Rc<[u8]>,
}

/// The path without empty parts, or false where it is bad.
fn normalize(path: &[u8], key: &mut Vec<u8>) -> bool {
    key.clear();
    if path.first() != Some(&b'/') || path.len() > 4096 {
        return false;
    }
    if is_normal(path) {
        key.extend_from_slice(path);
        return true;
    }
    for part in path.split(|it| *it == b'/') {
        match part {
            b"" => {}
            b"." | b".." => return false,
            _ if part.contains(&0) => return false,
            _ => {
                key.push(b'/');
                key.extend_from_slice(part);
            }
        }
    }
    true
}

/// Whether a path that begins with `/` surely has no empty part, no part that begins with `.`, and no NUL.
fn is_normal(path: &[u8]) -> bool {
    let pairs = path.iter().zip(&path[1..]);
    let odd = pairs.fold(false, |odd, (one, next)| odd | (*one == b'/' && (*next == b'/' || *next == b'.')) | (*next == 0));
    !odd && path.last() != Some(&b'/')
}

fn parent(key: &[u8]) -> Option<&[u8]> {
    let at = key.iter().rposition(|it| *it == b'/')?;
    Some(&key[..at])
}

impl Tree {
    pub fn new() -> Tree {
        let empty: Rc<[u8]> = Rc::from([]);
        let mut nodes = FastMap::default();
        let root = Node { kind: Kind::Dir, mode: 0o755, children: 0, content: Rc::clone(&empty) };
        nodes.insert(Box::from([]), root);
        Tree { nodes, key: Vec::new(), from: Vec::new(), missing: Vec::new(), empty }
    }

    pub fn has(&mut self, path: &[u8]) -> bool {
        normalize(path, &mut self.key) && self.nodes.contains_key(&self.key[..])
    }

    pub fn change(&mut self, path: &[u8], change: Change<'_>) -> Result<(), &'static [u8]> {
        if !normalize(path, &mut self.key) {
            return Err(b"BadPath");
        }
        let mut source = None;
        if let Change::Copy(from) = change {
            if !normalize(from, &mut self.from) {
                return Err(b"BadPath");
            }
            let node = self.nodes.get(&self.from[..]).ok_or(b"Absent" as &[u8])?;
            source = Some((node.kind, node.mode, Rc::clone(&node.content)));
        }
        match self.nodes.get_mut(&self.key[..]) {
            Some(node) => Self::change_node(node, &change, source, &self.empty, self.key.is_empty())?,
            None => return self.make(change, source),
        }
        if matches!(change, Change::Rm | Change::Rmdir) {
            self.nodes.remove(&self.key[..]);
            if let Some(above) = parent(&self.key).and_then(|it| self.nodes.get_mut(it)) {
                above.children -= 1;
            }
        }
        Ok(())
    }

    /// Changes a node that is there; one that is to be taken away is only judged.
    fn change_node(
        node: &mut Node,
        change: &Change<'_>,
        source: Option<(Kind, u16, Rc<[u8]>)>,
        empty: &Rc<[u8]>,
        is_root: bool,
    ) -> Result<(), &'static [u8]> {
        let is_dir = node.kind == Kind::Dir;
        match change {
            Change::Write(_) | Change::Copy(_) | Change::Rm if is_dir => return Err(b"IsDir"),
            Change::Rm => {}
            Change::Write(content) => {
                Self::replace(node, if content.is_empty() { Rc::clone(empty) } else { Rc::from(*content) });
            }
            Change::Copy(_) => {
                if let Some((kind, mode, content)) = source {
                    Self::judge_source(kind, mode)?;
                    Self::replace(node, content);
                }
            }
            Change::Mkdir(_) if !is_dir => return Err(b"Exists"),
            Change::Mkdir(mode) | Change::Chmod(mode) => node.mode = *mode,
            Change::Symlink(_) => return Err(b"Exists"),
            Change::Rmdir if !is_dir => return Err(b"NotDir"),
            Change::Rmdir if is_root || node.children > 0 => return Err(b"NotEmpty"),
            Change::Rmdir => {}
        }
        Ok(())
    }

    fn replace(node: &mut Node, content: Rc<[u8]>) {
        if node.kind != Kind::File {
            node.mode = 0o600;
        }
        node.kind = Kind::File;
        node.content = content;
    }

    fn judge_source(kind: Kind, mode: u16) -> Result<(), &'static [u8]> {
        match kind {
            Kind::Dir => Err(b"IsDir"),
            Kind::Link => Err(b"Insecure"),
            Kind::File if mode & 0o22 != 0 => Err(b"Insecure"),
            Kind::File => Ok(()),
        }
    }

    /// Makes the node at `key`, and the directories that it lacks.
    fn make(
        &mut self,
        change: Change<'_>,
        source: Option<(Kind, u16, Rc<[u8]>)>,
    ) -> Result<(), &'static [u8]> {
        if matches!(change, Change::Rm | Change::Rmdir | Change::Chmod(_)) {
            return Err(b"Absent");
        }
        if let Some((Kind::Dir, ..)) = source {
            return Err(b"IsDir");
        }
        self.missing.clear();
        let mut at = parent(&self.key).unwrap_or(&[]);
        loop {
            match self.nodes.get_mut(at) {
                Some(node) if node.kind != Kind::Dir => return Err(b"NotDir"),
                Some(node) => {
                    if let Some((kind, mode, _)) = source {
                        Self::judge_source(kind, mode)?;
                    }
                    node.children += 1;
                    break;
                }
                None => self.missing.push(at.len()),
            }
            at = parent(at).unwrap_or(&[]);
        }
        for end in self.missing.drain(..) {
            let dir = Node { kind: Kind::Dir, mode: 0o755, children: 1, content: Rc::clone(&self.empty) };
            self.nodes.insert(Box::from(&self.key[..end]), dir);
        }
        let copied = source.map(|(_, _, content)| content);
        let (kind, mode, content) = match change {
            Change::Mkdir(mode) => (Kind::Dir, mode, Rc::clone(&self.empty)),
            Change::Symlink(target) => (Kind::Link, 0o777, Rc::from(target)),
            Change::Write(content) if !content.is_empty() => (Kind::File, 0o600, Rc::from(content)),
            _ => (Kind::File, 0o600, copied.unwrap_or_else(|| Rc::clone(&self.empty))),
        };
        self.nodes.insert(Box::from(&self.key[..]), Node { kind, mode, children: 0, content });
        Ok(())
    }
}
