//! Prints the functions and lines of a backtrace of a program: `backtrace PROGRAM < TEXT`.
//!
//! TEXT has lines as glibc's `backtrace_symbols_fd` writes them: `./program(+0x1139)[0x55f8a4f8b139]`, where the first
//! number counts from where the program is loaded. A line that has no such number, or of which nothing is known, is
//! printed as it is.
use std::{env, error::Error, fs, io};

fn main() -> Result<(), Box<dyn Error>> {
    let path = env::args().nth(1).ok_or("no program")?;
    let file = fs::read(&path)?;
    let lines = io::stdin().lines().collect::<Result<Vec<_>, _>>()?;
    let base = path.rsplit('/').next().unwrap_or(&path);
    let call = |line: &String| {
        let (name, rest) = line.split_once("(+0x")?;
        let number = u64::from_str_radix(rest.split_once(')')?.0, 16).ok()?;
        // A return address is after the call.
        name.ends_with(base).then(|| number.wrapping_sub(1))
    };
    let calls: Vec<Option<u64>> = lines.iter().map(call).collect();
    let mut addresses = dwv::Addresses::new(&file)?;
    let mut found = addresses.find(&calls.iter().copied().flatten().collect::<Vec<_>>())?.iter();
    let text = |bytes: Option<&[u8]>| String::from_utf8_lossy(bytes.unwrap_or(b"??")).into_owned();
    for (line, call) in lines.iter().zip(calls) {
        let frames = call.and_then(|_| found.next()).filter(|frames| frames.len() > 0);
        if frames.is_none() {
            println!("{line}");
        }
        for frame in frames.into_iter().flatten() {
            println!("{} at {}:{}", text(frame.function), text(frame.file), frame.line.unwrap_or(0));
        }
    }
    Ok(())
}
