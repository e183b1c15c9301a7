//! Which part of an image document 02 says is read: `part IMAGE..` prints offset and length of each, or the refusal.

use sticks::gpt::expected_part;

fn main() -> std::io::Result<()> {
    for file in std::env::args_os().skip(1) {
        match expected_part(&std::fs::read(file)?) {
            Ok((offset, length)) => println!("{offset} {length}"),
            Err(number) => println!("refused with {number}"),
        }
    }
    Ok(())
}
