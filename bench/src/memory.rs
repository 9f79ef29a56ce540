//! What a program holds resident at most, on the session with the longest
//! output: 4,096 steps back with nothing listed. It is looked at while the
//! program waits in the middle of its output for a pipe that holds 4,096 bytes.

use std::io::{self, Read, Write};
use std::os::unix::io::AsRawFd;
use std::process::{Child, Command, Stdio};

extern "C" {
    fn fcntl(fd: i32, command: i32, argument: i32) -> i32;
}

/// F_SETPIPE_SZ of Linux.
const SET_PIPE_SIZE: i32 = 1031;

/// VmHWM of a running program: the largest resident set that it has had.
fn resident(child: &Child) -> io::Result<String> {
    let status = std::fs::read_to_string(format!("/proc/{}/status", child.id()))?;
    let line = status.lines().find_map(|line| line.strip_prefix("VmHWM:"));
    Ok(line.unwrap_or(" unknown").trim().to_string())
}

/// Runs a program on the session with the longest output: its largest resident set, and how many bytes it writes.
fn run(command: &[String]) -> io::Result<(String, usize)> {
    let input = [7; 4096];
    let mut child = Command::new(&command[0]).args(&command[1..]).stdin(Stdio::piped()).stdout(Stdio::piped()).spawn()?;
    let mut stdout = child.stdout.take().expect("a pipe");
    if unsafe { fcntl(stdout.as_raw_fd(), SET_PIPE_SIZE, 4096) } < 0 {
        return Err(io::Error::last_os_error());
    }
    child.stdin.take().expect("a pipe").write_all(&input)?;
    let mut first = [0];
    stdout.read_exact(&mut first)?;
    let most = resident(&child)?;
    let mut rest = Vec::new();
    stdout.read_to_end(&mut rest)?;
    child.wait()?;
    Ok((most, 1 + rest.len()))
}

/// Prints the largest resident set of a program.
pub fn report(command: &[String]) -> Result<(), String> {
    let (most, output) = run(command).map_err(|e| format!("{}: {e}", command[0]))?;
    println!("{}: {most} resident at most, {output} bytes of output", command[0]);
    Ok(())
}
