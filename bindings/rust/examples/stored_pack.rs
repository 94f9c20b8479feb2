//! stored_pack LIST: of the packs that are taken in a list of stored answers, the one with the most words, to standard output.

#[expect(dead_code)]
#[path = "../tests/stored/mod.rs"]
mod stored;

use std::env;
use std::io::{self, Write};
use std::path::PathBuf;

fn main() -> io::Result<()> {
    let list = env::args_os().nth(1).map(PathBuf::from).ok_or(io::Error::other("usage: stored_pack LIST"))?;
    let (mut pack, mut words) = (Vec::new(), 0);
    stored::each(&list, |record| {
        if record.kind == stored::WHOLE && words < record.count {
            (pack, words) = (record.pack, record.count);
        }
    });
    io::stdout().write_all(&pack)
}
