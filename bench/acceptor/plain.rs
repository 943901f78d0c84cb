// What an acceptor's save to a log does, in plain Rust: each time 22 bytes, which are the entry of
// a vote for one key, are appended to a file and its data is synced. Prints the nanoseconds of one.
use std::fs::OpenOptions;
use std::io::Write;
use std::time::Instant;

const SAVES: u32 = 2000;

fn main() -> std::io::Result<()> {
    let mut file = OpenOptions::new().create(true).append(true).open("plain")?;
    let begun = Instant::now();
    for place in 0..SAVES {
        let mut entry = [3u8, 0, 0, 0, 0, 0, 0, 0, 1, 1, 1, 2, 0, 0, 0, 1, 0, 0, 0, 1, 1, 0x48];
        entry[1..5].copy_from_slice(&place.to_be_bytes());
        file.write_all(&entry)?;
        file.sync_data()?;
    }
    println!("plain {}", begun.elapsed().as_nanos() / u128::from(SAVES));
    std::fs::remove_file("plain")
}
