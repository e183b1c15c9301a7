//! Writes sticks for other readers: `proper FOLDER COUNT`.

use sticks::plan::large;
use sticks::random::Random;
use sticks::{make, Plan};

fn main() -> std::io::Result<()> {
    let mut args = std::env::args().skip(1);
    let (folder, count) = (args.next(), args.next().and_then(|n| n.parse().ok()));
    let (Some(folder), Some(count)) = (folder, count) else { panic!("usage: proper FOLDER COUNT") };
    let large = [large::spread(1000, 0), large::spread(300, 40), large::file(300_000, 1, 4096, &mut Random::new(1))];
    let drawn = (0..).flat_map(|seed| Plan::draw(seed).volumes).filter(|v| v.is_regular()).map(|v| v.contents);
    for (i, contents) in large.into_iter().chain(drawn).take(count).enumerate() {
        let image = make(Plan::proper(&contents, i as u64)).image;
        std::fs::write(format!("{folder}/{i}.img"), image)?;
    }
    Ok(())
}
