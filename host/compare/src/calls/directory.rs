//! A volume's directories. Where every key of one has the volume's form and is long enough for the Rust, the Rust reads
//! it; any other is read by the host's own account of keys, the records and their values still by the Rust's parts.

use std::cell::{Cell, RefCell};
use std::collections::BTreeMap;

use oracle::error::{Error, Result};
use oracle::fs::{DirEntry, FileKind, Volume, APFS_TYPE_DIR_REC};
use oracle::probe;

use crate::calls::keys;
use crate::opening::answer::caught;

const KIND: u16 = 0xf;

/// By what a key's form is told.
#[derive(Clone, Copy, Debug, PartialEq, Eq)]
pub enum Rule {
    /// The volume's kind, as request 03 has it.
    Kind,
    /// Its length: the Rust alone is asked.
    Length,
}

/// Whose reading of directory keys an answer rests on.
#[derive(Clone, Copy, Debug, Default, PartialEq, Eq, PartialOrd, Ord)]
pub enum Account {
    /// No directory was read.
    #[default]
    None,
    Rust,
    /// That of the host, from the reference, for one of the directories at least.
    Reference,
}

pub struct Directories<'v> {
    pub v: &'v Volume<'v>,
    rule: Rule,
    hashed: bool,
    account: Cell<Account>,
    /// Whether the Rust reads a directory alike, by its id.
    common: RefCell<BTreeMap<u64, bool>>,
}

impl<'v> Directories<'v> {
    pub fn of(v: &'v Volume<'v>, rule: Rule) -> Directories<'v> {
        Directories {
            v,
            rule,
            hashed: keys::are_hashed(&v.sb.raw),
            account: Cell::default(),
            common: RefCell::default(),
        }
    }

    /// Whose account was used since it was last taken.
    pub fn account(&self) -> Account {
        self.account.get()
    }

    pub fn take_account(&self) -> Account {
        self.account.take()
    }

    pub fn read(&self, id: u64) -> Result<Vec<DirEntry>> {
        if self.rule == Rule::Length || self.is_common(id) {
            self.account.set(self.account.get().max(Account::Rust));
            return self.v.read_dir(id);
        }
        self.account.set(Account::Reference);
        self.by_reference(id)
    }

    /// The names' fields of a directory that was read.
    pub fn fields(&self, id: u64) -> Result<Vec<Vec<u8>>> {
        let mut out = Vec::new();
        probe::records(self.v, id, APFS_TYPE_DIR_REC, &mut |key, _| {
            out.push(self.field(key)?.to_vec());
            Ok(true)
        })?;
        Ok(out)
    }

    /// Whether the Rust reads the directory alike. Where the scan is refused or stops, the keys before that are all that
    /// any reader meets.
    pub fn is_common(&self, id: u64) -> bool {
        let scanned = || {
            let mut common = true;
            let _ = caught(|| {
                probe::records(self.v, id, APFS_TYPE_DIR_REC, &mut |key, _| {
                    common &= keys::is_common(key, self.hashed);
                    Ok(common)
                })
            });
            common
        };
        *self.common.borrow_mut().entry(id).or_insert_with(scanned)
    }

    fn field<'k>(&self, key: &'k [u8]) -> Result<&'k [u8]> {
        let field = match self.rule {
            Rule::Kind => keys::name(key, self.hashed),
            Rule::Length => keys::by_length(key),
        };
        field.ok_or_else(|| Error::Corrupt(format!("a key of {} bytes is not of the form", key.len())))
    }

    /// By the host's own account, also where the Rust's is the same.
    pub fn by_reference(&self, id: u64) -> Result<Vec<DirEntry>> {
        let mut out = Vec::new();
        probe::records(self.v, id, APFS_TYPE_DIR_REC, &mut |key, value| {
            out.push(DirEntry {
                name: probe::cstr(self.field(key)?),
                file_id: probe::u64_at(value, 0)?,
                date_added: probe::u64_at(value, 8)?,
                kind: FileKind::from_dt(probe::u16_at(value, 16)? & KIND),
            });
            Ok(true)
        })?;
        Ok(out)
    }
}
