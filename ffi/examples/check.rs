//! Answers the check lines of the vectors (docs/VECTORS.md) through the library: a line in, a line out.
//!
//!     rustc --edition 2021 -O ffi/examples/check.rs -L native=ffi -l static=warg -o check && ./check < lines

use std::io::{self, BufRead, Write};

extern "C" {
    fn warg_check_entry(
        bundle: *const u8, bundle_bytes: usize, at: usize, index: usize,
        value: *const u8, value_bytes: usize, length: usize,
        root: *const u8, root_bytes: usize,
    ) -> i32;
    fn warg_check_growth(
        bundle: *const u8, bundle_bytes: usize, at: usize, old_length: usize,
        old_root: *const u8, old_root_bytes: usize, new_length: usize,
        new_root: *const u8, new_root_bytes: usize,
    ) -> i32;
    fn warg_check_inclusion(
        bundle: *const u8, bundle_bytes: usize, at: usize,
        value: *const u8, value_bytes: usize, root: *const u8, root_bytes: usize,
    ) -> i32;
    fn warg_check_consistency(
        bundle: *const u8, bundle_bytes: usize, at: usize,
        old_root: *const u8, old_root_bytes: usize, new_root: *const u8, new_root_bytes: usize,
    ) -> i32;
    fn warg_check_key(
        bundle: *const u8, bundle_bytes: usize, at: usize, key: *const u8, key_bytes: usize,
        value: *const u8, value_bytes: usize, root: *const u8, root_bytes: usize,
    ) -> i32;
    fn warg_check_absent(
        bundle: *const u8, bundle_bytes: usize, at: usize, key: *const u8, key_bytes: usize,
        root: *const u8, root_bytes: usize,
    ) -> i32;
    fn warg_check_update(
        bundle: *const u8, bundle_bytes: usize, at: usize, key: *const u8, key_bytes: usize,
        old_value: *const u8, old_value_bytes: usize, new_value: *const u8, new_value_bytes: usize,
        old_root: *const u8, old_root_bytes: usize, new_root: *const u8, new_root_bytes: usize,
    ) -> i32;
    fn warg_check_insertion(
        bundle: *const u8, bundle_bytes: usize, at: usize, key: *const u8, key_bytes: usize,
        value: *const u8, value_bytes: usize, old_root: *const u8, old_root_bytes: usize,
        new_root: *const u8, new_root_bytes: usize,
    ) -> i32;
    fn warg_check_record(
        path: *const u8, path_bytes: usize, index: usize, value: *const u8, value_bytes: usize,
        length: usize, root: *const u8, root_bytes: usize,
    ) -> i32;
    fn warg_check_tree(
        path: *const u8, path_bytes: usize, old_length: usize, old_root: *const u8, old_root_bytes: usize,
        new_length: usize, new_root: *const u8, new_root_bytes: usize,
    ) -> i32;
}

/// Why there is no verdict.
#[derive(Debug)]
pub enum Refused {
    OutOfMemory,
    NoSuchProof,
    RootLength,
    HashLength,
    Decode(&'static str),
}

/// A number of the library as a verdict.
fn verdict(number: i32) -> Result<bool, Refused> {
    match number {
        1 => Ok(true),
        0 => Ok(false),
        -1 => Err(Refused::OutOfMemory),
        -2 => Err(Refused::NoSuchProof),
        -3 => Err(Refused::RootLength),
        -11 => Err(Refused::Decode("Wire(Truncated)")),
        -12 => Err(Refused::Decode("Wire(BadVarint)")),
        -13 => Err(Refused::Decode("Wire(BadTag)")),
        -14 => Err(Refused::Decode("Wire(Group)")),
        -15 => Err(Refused::Decode("Wire(BadWireType)")),
        -16 => Err(Refused::Decode("Wire(WrongWireType)")),
        -17 => Err(Refused::Decode("Wire(NumberTooLarge)")),
        -21 => Err(Refused::Decode("HashLength")),
        -22 => Err(Refused::Decode("NotAscending")),
        -23 => Err(Refused::Decode("TooManyPeers")),
        other => unreachable!("the header names no {other}"),
    }
}

/// The same for a path, whose bytes can have one fault alone.
fn path_verdict(number: i32) -> Result<bool, Refused> {
    if number == -21 { Err(Refused::HashLength) } else { verdict(number) }
}

/// See `warg_check_entry` in `warg.h`.
pub fn check_entry(
    bundle: &[u8], at: usize, index: usize, value: &[u8], length: usize, root: &[u8],
) -> Result<bool, Refused> {
    // Slices are valid for their lengths, and no call keeps a pointer.
    verdict(unsafe {
        warg_check_entry(
            bundle.as_ptr(), bundle.len(), at, index, value.as_ptr(), value.len(), length,
            root.as_ptr(), root.len(),
        )
    })
}

/// See `warg_check_growth` in `warg.h`.
pub fn check_growth(
    bundle: &[u8], at: usize, old_length: usize, old: &[u8], new_length: usize, new: &[u8],
) -> Result<bool, Refused> {
    verdict(unsafe {
        warg_check_growth(
            bundle.as_ptr(), bundle.len(), at, old_length, old.as_ptr(), old.len(), new_length,
            new.as_ptr(), new.len(),
        )
    })
}

/// See `warg_check_inclusion` in `warg.h`.
pub fn check_inclusion(bundle: &[u8], at: usize, value: &[u8], root: &[u8]) -> Result<bool, Refused> {
    verdict(unsafe {
        warg_check_inclusion(
            bundle.as_ptr(), bundle.len(), at, value.as_ptr(), value.len(), root.as_ptr(), root.len(),
        )
    })
}

/// See `warg_check_consistency` in `warg.h`.
pub fn check_consistency(bundle: &[u8], at: usize, old: &[u8], new: &[u8]) -> Result<bool, Refused> {
    verdict(unsafe {
        warg_check_consistency(
            bundle.as_ptr(), bundle.len(), at, old.as_ptr(), old.len(), new.as_ptr(), new.len(),
        )
    })
}

/// See `warg_check_key` in `warg.h`.
pub fn check_key(
    bundle: &[u8], at: usize, key: &[u8], value: &[u8], root: &[u8],
) -> Result<bool, Refused> {
    verdict(unsafe {
        warg_check_key(
            bundle.as_ptr(), bundle.len(), at, key.as_ptr(), key.len(), value.as_ptr(), value.len(),
            root.as_ptr(), root.len(),
        )
    })
}

/// See `warg_check_absent` in `warg.h`.
pub fn check_absent(bundle: &[u8], at: usize, key: &[u8], root: &[u8]) -> Result<bool, Refused> {
    verdict(unsafe {
        warg_check_absent(
            bundle.as_ptr(), bundle.len(), at, key.as_ptr(), key.len(), root.as_ptr(), root.len(),
        )
    })
}

/// See `warg_check_update` in `warg.h`.
pub fn check_update(
    bundle: &[u8], at: usize, key: &[u8], old_value: &[u8], new_value: &[u8], old: &[u8], new: &[u8],
) -> Result<bool, Refused> {
    verdict(unsafe {
        warg_check_update(
            bundle.as_ptr(), bundle.len(), at, key.as_ptr(), key.len(), old_value.as_ptr(), old_value.len(),
            new_value.as_ptr(), new_value.len(), old.as_ptr(), old.len(), new.as_ptr(), new.len(),
        )
    })
}

/// See `warg_check_insertion` in `warg.h`.
pub fn check_insertion(
    bundle: &[u8], at: usize, key: &[u8], value: &[u8], old: &[u8], new: &[u8],
) -> Result<bool, Refused> {
    verdict(unsafe {
        warg_check_insertion(
            bundle.as_ptr(), bundle.len(), at, key.as_ptr(), key.len(), value.as_ptr(), value.len(),
            old.as_ptr(), old.len(), new.as_ptr(), new.len(),
        )
    })
}

/// See `warg_check_record` in `warg.h`.
pub fn check_record(
    path: &[u8], index: usize, value: &[u8], length: usize, root: &[u8],
) -> Result<bool, Refused> {
    path_verdict(unsafe {
        warg_check_record(
            path.as_ptr(), path.len(), index, value.as_ptr(), value.len(), length, root.as_ptr(), root.len(),
        )
    })
}

/// See `warg_check_tree` in `warg.h`.
pub fn check_tree(
    path: &[u8], old_length: usize, old: &[u8], new_length: usize, new: &[u8],
) -> Result<bool, Refused> {
    path_verdict(unsafe {
        warg_check_tree(
            path.as_ptr(), path.len(), old_length, old.as_ptr(), old.len(), new_length, new.as_ptr(), new.len(),
        )
    })
}

/// The bytes of hexadecimal digits, or of `-` for none.
fn bytes(word: &str) -> Option<Vec<u8>> {
    let digits = word.trim_matches('-');
    (0..digits.len()).step_by(2).map(|at| u8::from_str_radix(digits.get(at..at + 2)?, 16).ok()).collect()
}

/// What a line asks for, or none where it is no call.
fn answer(line: &str) -> Option<Result<bool, Refused>> {
    let words: Vec<&str> = line.split(' ').collect();
    let number = |word: &str| word.parse::<usize>().ok();
    Some(match words.as_slice() {
        ["check_entry", bundle, at, index, value, length, root] => check_entry(
            &bytes(bundle)?, number(at)?, number(index)?, &bytes(value)?, number(length)?, &bytes(root)?,
        ),
        ["check_growth", bundle, at, old_length, old, new_length, new] => check_growth(
            &bytes(bundle)?, number(at)?, number(old_length)?, &bytes(old)?, number(new_length)?, &bytes(new)?,
        ),
        ["check_inclusion", bundle, at, value, root] => {
            check_inclusion(&bytes(bundle)?, number(at)?, &bytes(value)?, &bytes(root)?)
        }
        ["check_consistency", bundle, at, old, new] => {
            check_consistency(&bytes(bundle)?, number(at)?, &bytes(old)?, &bytes(new)?)
        }
        ["check_key", bundle, at, key, value, root] => {
            check_key(&bytes(bundle)?, number(at)?, &bytes(key)?, &bytes(value)?, &bytes(root)?)
        }
        ["check_absent", bundle, at, key, root] => {
            check_absent(&bytes(bundle)?, number(at)?, &bytes(key)?, &bytes(root)?)
        }
        ["check_update", bundle, at, key, old_value, new_value, old, new] => check_update(
            &bytes(bundle)?, number(at)?, &bytes(key)?, &bytes(old_value)?, &bytes(new_value)?, &bytes(old)?, &bytes(new)?,
        ),
        ["check_insertion", bundle, at, key, value, old, new] => check_insertion(
            &bytes(bundle)?, number(at)?, &bytes(key)?, &bytes(value)?, &bytes(old)?, &bytes(new)?,
        ),
        ["check_record", path, index, value, length, root] => {
            check_record(&bytes(path)?, number(index)?, &bytes(value)?, number(length)?, &bytes(root)?)
        }
        ["check_tree", path, old_length, old, new_length, new] => check_tree(
            &bytes(path)?, number(old_length)?, &bytes(old)?, number(new_length)?, &bytes(new)?,
        ),
        _ => return None,
    })
}

fn main() -> io::Result<()> {
    let mut out = io::stdout().lock();
    for line in io::stdin().lock().lines() {
        match answer(&line?) {
            Some(Ok(holds)) => writeln!(out, "{holds}")?,
            Some(Err(Refused::OutOfMemory)) => writeln!(out, "refused Memory")?,
            Some(Err(Refused::NoSuchProof)) => writeln!(out, "refused NoSuchProof")?,
            Some(Err(Refused::HashLength)) => writeln!(out, "refused HashLength")?,
            Some(Err(Refused::Decode(fault))) => writeln!(out, "refused Decode({fault})")?,
            Some(Err(Refused::RootLength)) | None => writeln!(out, "bad call")?,
        }
    }
    Ok(())
}
