//! Reads a source from standard input and prints its record.

use std::io::Read;

fn main() -> std::io::Result<()> {
    let mut source = Vec::new();
    std::io::stdin().read_to_end(&mut source)?;
    let mut record = String::new();
    oracle::list::write_record(&mut record, &source, &oracle::answer(&source));
    print!("{record}");
    Ok(())
}
