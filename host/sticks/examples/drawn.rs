//! Writes sticks as the comparison draws them: `drawn FOLDER COUNT`.

use sticks::{make, Plan};

fn main() -> std::io::Result<()> {
    let mut args = std::env::args().skip(1);
    let (folder, count) = (args.next(), args.next().and_then(|n| n.parse().ok()));
    let (Some(folder), Some(count)) = (folder, count) else { panic!("usage: drawn FOLDER COUNT") };
    for seed in 0..count {
        std::fs::write(format!("{folder}/{seed}.img"), make(Plan::draw(seed)).image)?;
    }
    Ok(())
}
