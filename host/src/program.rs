//! The proved program `find`, run as a user runs it.
use crate::output::reason;
use std::{
    env,
    io::{self, Write},
    path::{Path, PathBuf},
    process::{Command, Stdio},
    thread,
};

/// The program that the variable FIND names, or crates/find/out/find; none where there is no such file.
pub fn find() -> Option<PathBuf> {
    let path = env::var_os("FIND").map_or(PathBuf::from("crates/find/out/find"), PathBuf::from);
    path.is_file().then_some(path)
}

/// What a program prints for these bytes on its standard input, of which it need not read all.
pub fn printed(program: &Path, input: &[u8]) -> Result<Vec<u8>, String> {
    let failed = |reason: String| format!("{}: {reason}", program.display());
    let system = |error: io::Error| failed(reason(&error));
    let mut child = Command::new(program)
        .stdin(Stdio::piped())
        .stdout(Stdio::piped())
        .spawn()
        .map_err(system)?;
    let pipe = child.stdin.take();
    let output = thread::scope(|scope| {
        scope.spawn(|| pipe.map(|mut pipe| pipe.write_all(input)));
        child.wait_with_output()
    })
    .map_err(system)?;
    match output.status.success() {
        true => Ok(output.stdout),
        false => Err(failed(output.status.to_string())),
    }
}
