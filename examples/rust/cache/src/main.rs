//! Puts a word of the command line into a cache that lies in a file, and tells what it has.
//!
//!     cache PROFILE FILE KEY [VALUE]

use cache::Cache;
use std::{env, error::Error, fs};

fn main() -> Result<(), Box<dyn Error>> {
    let words: Vec<String> = env::args().skip(1).collect();
    let [profile, file, key, value @ ..] = words.as_slice() else {
        return Err("cache PROFILE FILE KEY [VALUE]".into());
    };
    let profile = fs::read(profile)?;
    let store = fs::OpenOptions::new()
        .read(true)
        .write(true)
        .create(true)
        .truncate(false)
        .open(file)?;
    let (mut cache, _) = Cache::on_file(&profile, store)?;
    if let [value] = value {
        cache.put(key.as_bytes(), value.as_bytes())?;
    }
    match cache.get(key.as_bytes())? {
        Some(value) => println!("{}", String::from_utf8_lossy(&value)),
        None => println!("{key} isn't there"),
    }
    Ok(())
}
