//! The lines of document 01's notation.

use compare::calls::call::Call;
use compare::calls::directory::Account;
use compare::calls::expected::{Answer, Expected, Kind};
use compare::calls::line::{attribute, entry, extent, hex, kind, node, total};
use compare::calls::tally::Tally;
use oracle::fs::{DirEntry, Dstream, Extent, FileKind, Inode, Xattr, XattrData};

fn inode() -> Inode {
    Inode {
        id: 2,
        parent_id: 1,
        private_id: 3,
        create_time: 4,
        mod_time: 5,
        change_time: 6,
        access_time: u64::MAX,
        internal_flags: 8,
        nchildren_or_nlink: i32::MIN,
        bsd_flags: 10,
        owner: 11,
        group: 12,
        mode: 16877,
        name: None,
        dstream: None,
    }
}

#[test]
fn a_node_has_its_fields_in_the_rusts_order() {
    let line = "(node 2 1 3 4 5 6 18446744073709551615 8 -2147483648 10 11 12 16877 - -\n";
    assert_eq!(node(&inode()), line);
    let stream = Some(Dstream { size: 20, alloced_size: 4096 });
    let named = Inode { name: Some("aé".into()), dstream: stream, nchildren_or_nlink: 0, ..inode() };
    assert!(node(&named).ends_with(" 8 0 10 11 12 16877 x61c3a9 20,4096\n"), "{}", node(&named));
    let empty = Inode { name: Some(String::new()), ..inode() };
    assert!(node(&empty).ends_with(" 16877 x -\n"));
}

#[test]
fn a_kind_is_the_stored_number() {
    for n in 0..16 {
        assert_eq!(kind(FileKind::from_dt(n)), n);
    }
}

#[test]
fn entries_attributes_and_extents() {
    let e = DirEntry { name: "\u{fffd}".into(), file_id: 7, date_added: 8, kind: FileKind::Unknown(15) };
    assert_eq!(entry(&e), "(entry 7 8 15 xefbfbd\n");
    let mut x = Xattr { name: "n".into(), flags: 3, data: XattrData::Stream { obj_id: 9, size: 2 } };
    assert_eq!(attribute(&x, &[0, 0xab]), "(attr 3 x6e s 9 x00ab)\n");
    x.data = XattrData::Embedded(Vec::new());
    assert_eq!(attribute(&x, &[]), "(attr 3 x6e e x)\n");
    let e = Extent { logical: 1, len: 2, phys_block: 0 };
    assert_eq!(extent(&e), "(extent 1 2 0)\n");
    assert_eq!(hex(b"\x0f\xf0"), "x0ff0");
    assert_eq!(total(1, 0, 0), "(total 1 0 0)\n");
    assert_eq!(total(10, u64::MAX, 305), "(total 10 18446744073709551615 305)\n");
}

#[test]
fn a_tally_counts_by_account() {
    let mut t = Tally::default();
    let call = Call::Entry { id: 2, place: 0 };
    let want = Expected::new(Answer::Refused(2), Kind::Refused(2));
    t.account(&call, &want);
    assert_eq!(t.accounts.len(), 0);
    t.account(&call, &Expected { account: Account::Reference, ..want });
    let missing = t.missing_accounts();
    assert!(!missing.contains(&"entry refused by the reference".to_string()), "{missing:?}");
    assert!(missing.contains(&"entry answered by the reference".to_string()), "{missing:?}");
    assert!(missing.contains(&"entry refused by the Rust".to_string()), "{missing:?}");
    let shown = t.to_string();
    assert!(
        shown.contains("keys by the reference: lookup 0 answered, 0 refused; entry 0 answered, 1 refused; "),
        "{shown}"
    );
}

#[test]
fn a_tally_counts_by_call_and_kind() {
    let mut t = Tally::default();
    let all = t.missing().len();
    let link = Call::Link { id: 2 };
    for _ in 0..3 {
        t.count(&link, Kind::Refused(2));
    }
    t.count(&Call::Lookup { path: vec![] }, Kind::Answered("root"));
    t.count(&Call::Lookup { path: vec![] }, Kind::Added(9));
    assert_eq!((t.calls(), t.missing().len()), (5, all - 3));
    assert!(!t.missing().contains(&"link: refused with 2".to_string()));
    assert!(t.missing().contains(&"link: refused with 3".to_string()));
    let shown = t.to_string();
    assert!(
        shown.contains("lookup      root 1; added 9 1\n") && shown.contains("link        refused with 2 3\n"),
        "{shown}"
    );
}
