//! What happens without memory, over the heap of `heap.c`.

use deno_semver_proved::npm::parse_npm_version_req;
use std::ffi::c_long;
use std::process::Command;

extern "C" {
    fn heap_limit(allocations: c_long) -> c_long;
}

// A process of its own ends when it is out of memory.
#[test]
fn out_of_memory() {
    if std::env::var_os("OUT_OF_MEMORY").is_some() {
        unsafe { heap_limit(0) };
        let _ = parse_npm_version_req("1 || 2");
        return;
    }
    let program = std::env::current_exe().unwrap();
    let ended = Command::new(program).args(["out_of_memory", "--nocapture"]).env("OUT_OF_MEMORY", "1").output().unwrap();
    assert!(!ended.status.success() && String::from_utf8_lossy(&ended.stderr).contains("memory allocation"));
}
