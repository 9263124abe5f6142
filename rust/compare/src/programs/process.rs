//! A program as a process.

use std::io::{self, ErrorKind, Read, Write};
use std::process::{ChildStdin, Command, Stdio};
use std::sync::mpsc;
use std::thread;
use std::time::Duration;

use super::Ended;

/// Between two pieces: time enough for a waiting program to read the first.
const PAUSE: Duration = Duration::from_millis(2);

/// Run it, with the pieces as standard input, one write each.
///
/// # Errors
/// It cannot be started, fed or heard, or does not end within the limit.
pub fn process(command: &mut Command, limit: Duration, pieces: &[&[u8]]) -> io::Result<Ended> {
    let mut child = command
        .stdin(Stdio::piped())
        .stdout(Stdio::piped())
        .stderr(Stdio::piped())
        .spawn()?;
    let stdin = child.stdin.take().expect("it is piped");
    let stdout = child.stdout.take().expect("it is piped");
    let stderr = child.stderr.take().expect("it is piped");
    // It is heard while it is fed, so that neither side waits for the other.
    thread::scope(|scope| {
        let (sender, receiver) = mpsc::channel();
        let read = scope.spawn(|| feed(stdin, pieces));
        let errors = scope.spawn(|| heard(stderr));
        let printed = scope.spawn(move || {
            let printed = heard(stdout);
            let _ = sender.send(());
            printed
        });
        let late = receiver.recv_timeout(limit).is_err();
        if late {
            child.kill()?;
        }
        let status = child.wait()?.code();
        let (printed, errors) = (printed.join(), errors.join());
        let read = read.join();
        if late {
            let what = format!("it did not end within {limit:?}");
            return Err(io::Error::new(ErrorKind::TimedOut, what));
        }
        Ok(Ended {
            printed: printed.expect("no panic")?,
            errors: errors.expect("no panic")?,
            status,
            read: read.expect("no panic")?,
        })
    })
}

/// Whether the program took it all; the pipe is closed at the end.
fn feed(mut stdin: ChildStdin, pieces: &[&[u8]]) -> io::Result<bool> {
    for (i, piece) in pieces.iter().enumerate() {
        if i > 0 {
            thread::sleep(PAUSE);
        }
        match stdin.write_all(piece).and_then(|()| stdin.flush()) {
            Err(error) if error.kind() == ErrorKind::BrokenPipe => return Ok(false),
            written => written?,
        }
    }
    Ok(true)
}

fn heard(mut pipe: impl Read) -> io::Result<Vec<u8>> {
    let mut bytes = vec![];
    pipe.read_to_end(&mut bytes)?;
    Ok(bytes)
}
