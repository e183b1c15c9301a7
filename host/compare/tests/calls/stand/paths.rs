//! Lookups by path.

use super::mistake::Mistake as M;
use super::records::{Entry, Inode};
use super::{test, Answer, Stand};

impl Stand<'_> {
    pub fn lookup(&self, path: &[u8]) -> Answer<Vec<u8>> {
        if self.has(M::FiveAfterRoot) {
            self.inode(2)?;
        }
        let path = std::str::from_utf8(path).map_err(|_| 5)?;
        let mut at = self.inode(2)?;
        let separates = |c: char| c == '/' || c == '\\' && !self.has(M::SlashAlone);
        for part in path.split(separates).filter(|p| !p.is_empty() || self.has(M::EmptyParts) && path.len() > 2) {
            let entries = self.entries(at.id)?;
            let id = self.find(&entries, part)?;
            at = self.inode(id)?;
        }
        Ok(self.node(&at).into_bytes())
    }

    /// The id of the first exactly equal name, else of the first with an equal key.
    fn find(&self, entries: &[Entry], part: &str) -> Answer<u64> {
        let exact = entries.iter().find(|e| e.name == part).map(|e| e.id);
        if self.has(M::NineBeforeExact) && self.insensitive() {
            test(part.is_ascii(), 9)?;
        }
        match exact {
            Some(id) if !self.has(M::KeyFirst) => Ok(id),
            _ if self.has(M::ExactAlone) => Err(4),
            _ => self.by_key(entries, part),
        }
    }

    fn insensitive(&self) -> bool {
        let rule = self.v.name_rule();
        rule.case_insensitive || rule.normalization_insensitive || self.has(M::NineOnSensitive)
    }

    fn by_key(&self, entries: &[Entry], part: &str) -> Answer<u64> {
        let fold = self.v.name_rule().case_insensitive && !self.has(M::CaseKept) || self.has(M::CaseIgnored);
        let key = |name: &str| if fold { name.to_lowercase() } else { name.to_string() };
        let nine = if self.has(M::NineAsAbsent) { 4 } else { 9 };
        let fine = |name: &str| name.is_ascii() || !self.insensitive();
        let late = self.has(M::NineAfterEntries) && entries.is_empty();
        test(fine(part) || late, nine)?;
        if self.has(M::NineBeyondMatch) {
            test(entries.iter().all(|e| fine(&e.name)), nine)?;
        }
        for e in entries {
            test(fine(&e.name), nine)?;
            if key(&e.name) == key(part) {
                return Ok(e.id);
            }
        }
        Err(4)
    }

    pub fn node(&self, i: &Inode) -> String {
        let id = if self.has(M::LookupOfEntryId) { i.head[1] } else { i.id };
        let head: Vec<String> = i.head.iter().map(u64::to_string).collect();
        let links = if self.has(M::LinksUnsigned) { i.links.to_string() } else { (i.links as i32).to_string() };
        let name = i.name.as_ref().map_or("-".to_string(), |n| self.hex(n.as_bytes()));
        let stream = i.stream.map_or("-".to_string(), |(size, allocated)| format!("{size},{allocated}"));
        let rest = format!("{links} {} {} {} {} {name} {stream}", i.bsd, i.owner, i.group, i.mode);
        format!("(node {id} {} {rest}\n", head.join(" "))
    }
}
