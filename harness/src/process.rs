// A program as a process: standard input in, standard output back. What it says on standard error is left to
// harness/wrappers.
use std::io::{Read, Write};
use std::process::{Child, ChildStdin, Command, Stdio};
use std::sync::mpsc::{channel, Receiver};
use std::time::Duration;

fn start(path: &str) -> Result<Child, String> {
    Command::new(path)
        .stdin(Stdio::piped())
        .stdout(Stdio::piped())
        .stderr(Stdio::null())
        .spawn()
        .map_err(|why| format!("{path}: {why}"))
}

// What the program at this path writes. It may stop reading before the input's end; its exit status must be 0.
pub fn run(path: &str, input: &[u8]) -> Result<Vec<u8>, String> {
    let mut child = start(path)?;
    let mut stdin = child.stdin.take().unwrap();
    let mut stdout = child.stdout.take().unwrap();
    let mut output = vec![];
    std::thread::scope(|scope| {
        // a broken pipe: the program has read what it needs
        scope.spawn(move || stdin.write_all(input));
        stdout.read_to_end(&mut output)
    })
    .map_err(|why| format!("{path}: {why}"))?;
    let status = child.wait().map_err(|why| format!("{path}: {why}"))?;
    if status.success() {
        Ok(output)
    } else {
        Err(format!("{path}: {status}"))
    }
}

// The lines that the program writes, without their line feeds; the last one has its line feed too.
pub fn lines(path: &str, input: &[u8]) -> Result<Vec<String>, String> {
    let output = String::from_utf8(run(path, input)?);
    let output = output.map_err(|_| format!("{path}: no text came"))?;
    if output.is_empty() {
        return Ok(vec![]);
    }
    let whole = output.strip_suffix('\n');
    let whole = whole.ok_or_else(|| format!("{path}: the last line has no end"))?;
    Ok(whole.split('\n').map(str::to_string).collect())
}

// A program that is written to piece by piece, and whose standard input stays open until the end.
pub struct Held {
    child: Child,
    stdin: Option<ChildStdin>,
    output: Receiver<Vec<u8>>,
}

impl Held {
    pub fn start(path: &str) -> Result<Held, String> {
        let mut child = start(path)?;
        let stdin = child.stdin.take();
        let mut stdout = child.stdout.take().unwrap();
        let (sender, output) = channel();
        std::thread::spawn(move || {
            let mut all = vec![];
            if stdout.read_to_end(&mut all).is_ok() {
                let _ = sender.send(all);
            }
        });
        Ok(Held {
            child,
            stdin,
            output,
        })
    }

    pub fn write(&mut self, piece: &[u8]) {
        if let Some(stdin) = &mut self.stdin {
            // a broken pipe: the program has read what it needs
            let _ = stdin.write_all(piece);
        }
    }

    pub fn end_input(&mut self) {
        self.stdin = None;
    }

    // All that the program wrote, where it comes to its end within this time.
    pub fn written(&mut self, within: Duration) -> Option<Vec<u8>> {
        self.output.recv_timeout(within).ok()
    }
}

impl Drop for Held {
    fn drop(&mut self) {
        let _ = self.child.kill();
        let _ = self.child.wait();
    }
}
