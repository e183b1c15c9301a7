//! How to call it.

const COMMANDS: [(&str, &str, &str); 11] = [
    ("sample", "FILE", "writes a small stick to try the others on"),
    ("ls", "IMAGE [PATH]", "what a directory holds: kind, size, name"),
    ("stat", "IMAGE [PATH]", "the container and its volumes; with a path, an inode's fields"),
    ("cat", "IMAGE PATH", "a file's bytes"),
    ("xattr", "IMAGE PATH [NAME]", "the attributes: flags, form, size, name; with a name, its bytes"),
    ("list", "IMAGE", "the listing of a whole volume"),
    ("measure", "IMAGE", "how many bytes that listing has, and its greatest depth"),
    ("mark", "IMAGE ID KIND PLACE", "the bookmark of a record, by its place among those of an id and a kind"),
    ("marked", "IMAGE MARK", "the key and the value that a bookmark leads to"),
    ("words", "IMAGE BLOCK", "of a block that fails its checksum, each place where one other word would mend it"),
    ("checkpoints", "IMAGE", "the transaction numbers of the checkpoints, one a line, the latest first"),
];

/// Of one command, in a line.
pub fn of(name: &str) -> String {
    match COMMANDS.iter().find(|c| c.0 == name) {
        Some((name @ ("sample" | "checkpoints"), words, _)) => format!("usage: apfs {name} {words}"),
        Some(("words", words, _)) => format!("usage: apfs words {words} [--block-size N]"),
        Some(("marked", words, _)) => format!("usage: apfs marked {words} [--checkpoint N] [--nodes]"),
        Some((name, words, _)) => format!("usage: apfs {name} {words} [--volume N] [--checkpoint N] [--nodes]"),
        None => all(),
    }
}

pub fn all() -> String {
    let lines: Vec<String> =
        COMMANDS.iter().map(|(name, words, what)| format!("  {:25} {what}", format!("{name} {words}"))).collect();
    let end = "IMAGE is of a stick with a GUID partition table, or of an APFS partition alone.\n\
               Each but sample, checkpoints, words and marked takes --volume N, of the volumes that `stat IMAGE` shows; else it is 0.\n\
               They and marked take --checkpoint N, of those that `checkpoints IMAGE` shows; else it is the latest.\n\
               They and marked take --nodes: how many nodes the calls went through is told on standard error.\n\
               words takes --block-size N; else it is 4096.";
    format!("usage: apfs COMMAND ..\n{}\n{end}", lines.join("\n"))
}
