//! A call for which there is no memory, in a process of its own that is given little.
#![cfg(target_os = "linux")]

use std::ffi::c_int;
use textmodel::{Error, Session};

const ADDRESS_SPACE: c_int = 9;
const PAGE: u64 = 4096;
const TEXT: usize = 64 << 20;

extern "C" {
    fn setrlimit(resource: c_int, limits: *const [u64; 2]) -> c_int;
}

fn pages_now() -> Option<u64> {
    let told = std::fs::read_to_string("/proc/self/statm").ok()?;
    told.split(' ').next()?.parse().ok()
}

#[test]
fn a_call_without_memory_changes_nothing() -> Result<(), Error> {
    let session = Session::new()?;
    let mut document = session.document(0)?;
    document.insert(0, "short")?;
    let long = "x".repeat(TEXT);
    let most = pages_now().expect("how much memory there is") * PAGE + (TEXT as u64 / 4);
    // SAFETY: `limits` are two numbers, as `setrlimit` reads them on 64 bits.
    assert_eq!(unsafe { setrlimit(ADDRESS_SPACE, &[most, most]) }, 0);
    let refused = document.insert(0, &long);
    assert!(matches!(refused, Err(Error::Memory(at)) if at.document == Some(0)), "{refused:?}");
    assert_eq!((document.text()?, document.version()), ("short".to_owned(), 2));
    Ok(())
}
