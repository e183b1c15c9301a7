//! The lines of a container and a volume.

use crate::tool::node::text;

pub struct Container {
    pub block_size: u64,
    pub blocks: u64,
    /// The transaction number of the checkpoint that was taken.
    pub checkpoint: u64,
    /// The volumes' object ids.
    pub volumes: Vec<u64>,
}

impl Container {
    pub fn parse(line: &str) -> Option<Container> {
        let words = line.strip_prefix("(container ")?.strip_suffix(")\n")?.split(' ');
        let numbers: Option<Vec<u64>> = words.map(|w| w.parse().ok()).collect();
        let [block_size, blocks, checkpoint, volumes @ ..] = &numbers?[..] else { return None };
        Some(Container { block_size: *block_size, blocks: *blocks, checkpoint: *checkpoint, volumes: volumes.to_vec() })
    }

    /// Which volumes there are, in words.
    pub fn which(&self) -> String {
        match self.volumes.len() {
            0 => "the stick has no volume".into(),
            1 => "the stick's only volume is 0".into(),
            n => format!("the stick's volumes are 0 to {}", n - 1),
        }
    }
}

pub struct Volume {
    pub case_insensitive: bool,
    pub normalization_insensitive: bool,
    pub label: String,
}

impl Volume {
    pub fn parse(line: &str) -> Option<Volume> {
        let words: Vec<&str> = line.strip_prefix("(volume ")?.strip_suffix('\n')?.split(' ').collect();
        let bit = |word: &str| word.parse::<u8>().ok().filter(|n| *n < 2).map(|n| n == 1);
        let [c, n, label] = words[..] else { return None };
        Some(Volume { case_insensitive: bit(c)?, normalization_insensitive: bit(n)?, label: text(label)? })
    }
}

#[cfg(test)]
mod tests {
    use super::{Container, Volume};

    #[test]
    fn a_volume_line_is_read() {
        let v = Volume::parse("(volume 1 0 x41\n").expect("a volume");
        assert!(v.case_insensitive && !v.normalization_insensitive && v.label == "A");
        for line in ["", "(volume 1 0\n", "(volume 2 0 x41\n", "(volume 1 0 x41"] {
            assert!(Volume::parse(line).is_none(), "{line}");
        }
    }

    #[test]
    fn a_container_line_is_read() {
        let c = Container::parse("(container 4096 20 7 1026 1033)\n").expect("a container");
        assert_eq!((c.block_size, c.blocks, c.checkpoint, &c.volumes[..]), (4096, 20, 7, &[1026, 1033][..]));
        assert_eq!(c.which(), "the stick's volumes are 0 to 1");
        let c = Container::parse("(container 4096 20 7)\n").expect("a container");
        assert!(c.volumes.is_empty());
        for line in ["", "(container 4096 20)\n", "(container 4096 20 7)", "(container 4096 20 x)\n"] {
            assert!(Container::parse(line).is_none(), "{line}");
        }
    }
}
