//! The program under judgement: it runs as a child process and gets every
//! request on its standard input from a thread of its own, while its replies are
//! heard here. A third thread ends it if it stops replying.

use crate::requests::Request;
use std::io::{self, BufReader, BufWriter, Read, Write};
use std::process::{Child, ChildStdin, ChildStdout, Command, ExitStatus, Stdio};
use std::sync::atomic::{AtomicUsize, Ordering};
use std::sync::mpsc::{self, Receiver, RecvTimeoutError, Sender};
use std::sync::{Arc, Mutex, MutexGuard, PoisonError};
use std::thread::{self, JoinHandle};
use std::time::Duration;

/// A program that gives no reply for so many looks, this long apart, is ended.
const PATIENCE: usize = 60;
const BETWEEN_WATCHES: Duration = Duration::from_secs(1);

/// A program whose output has ended is looked at so often, this long apart,
/// until it has ended itself; then it is ended.
const LOOKS: usize = 500;
const BETWEEN_LOOKS: Duration = Duration::from_millis(10);

/// So many bytes after the last reply are counted.
const SPARE: u64 = 65_536;

/// The bytes that are kept for the pipes, in either direction.
const BUFFER: usize = 65_536;

pub type Replies = BufReader<ChildStdout>;

/// Whether a listener wants more, or why it could not hear.
pub type Wish = io::Result<bool>;

pub struct Program {
    child: Arc<Mutex<Child>>,
    replies: Replies,
    /// What was written to the program.
    sent: Receiver<Request>,
    writer: JoinHandle<()>,
    /// How many replies were heard.
    heard: Arc<AtomicUsize>,
    /// Its end ends the watch.
    need_of_watch: Sender<()>,
    watch: JoinHandle<()>,
}

impl Program {
    pub fn start(
        command: &[String],
        requests: impl Iterator<Item = Request> + Send + 'static,
    ) -> Result<Program, String> {
        let mut child = Command::new(&command[0])
            .args(&command[1..])
            .stdin(Stdio::piped())
            .stdout(Stdio::piped())
            .spawn()
            .map_err(|error| format!("cannot start {}: {error}", command[0]))?;
        let stdin = child.stdin.take().expect("a piped input");
        let stdout = child.stdout.take().expect("a piped output");
        let child = Arc::new(Mutex::new(child));
        // The writer sends each request here before it writes it to the program,
        // and this channel never blocks, so neither side can wait for the other.
        let (sender, sent) = mpsc::channel();
        let writer = thread::spawn(move || write_all(stdin, &sender, requests));
        let heard = Arc::new(AtomicUsize::new(0));
        let (need_of_watch, need) = mpsc::channel();
        let watched = (Arc::clone(&child), Arc::clone(&heard));
        let watch = thread::spawn(move || keep_watch(&watched.0, &watched.1, &need));
        Ok(Program {
            child,
            replies: BufReader::with_capacity(BUFFER, stdout),
            sent,
            writer,
            heard,
            need_of_watch,
            watch,
        })
    }

    /// Has the replies heard one after another, all of them or until the
    /// listener wants no more; false if one did not come whole.
    pub fn hear(&mut self, mut listener: impl FnMut(&Request, &mut Replies) -> Wish) -> bool {
        for request in &self.sent {
            let wish = listener(&request, &mut self.replies);
            self.heard.fetch_add(1, Ordering::Relaxed);
            match wish {
                Ok(true) => {}
                Ok(false) => return true,
                Err(error) => {
                    println!("{}: no whole reply: {error}", request.name());
                    return false;
                }
            }
        }
        true
    }

    /// Ends a program of which nothing more is wanted.
    pub fn kill(self) {
        let _ = locked(&self.child).kill();
        drop((self.sent, self.replies, self.need_of_watch));
        let _ = locked(&self.child).wait();
        let _ = self.writer.join();
        let _ = self.watch.join();
    }

    /// Waits for the end of a program that was sent all requests; false if it
    /// has more to say or ends in another way than it should.
    pub fn end(self) -> bool {
        drop(self.sent);
        let mut spare = Vec::new();
        let _ = self.replies.take(SPARE).read_to_end(&mut spare);
        let status = wait(&self.child);
        drop(self.need_of_watch);
        let has_written = self.writer.join().is_ok();
        let _ = self.watch.join();
        if !has_written {
            println!("the judge failed to make its requests");
        }
        if !spare.is_empty() {
            println!("the program wrote {} bytes too many or more", spare.len());
        }
        let is_well = status.is_some_and(|status| status.success());
        match status {
            Some(status) if !is_well => println!("the program ended with {status}"),
            None => println!("the program did not end"),
            _ => {}
        }
        has_written && spare.is_empty() && is_well
    }
}

/// Writes the requests. It ends early only where the program or the judge no
/// longer listens, which the other side tells.
fn write_all(stdin: ChildStdin, sender: &Sender<Request>, requests: impl Iterator<Item = Request>) {
    let mut out = BufWriter::with_capacity(BUFFER, stdin);
    for request in requests {
        let bytes = request.bytes();
        if sender.send(request).is_err() || out.write_all(&bytes).is_err() {
            return;
        }
    }
    // A program that has gone is told by its missing replies.
    let _ = out.flush();
}

/// Ends the program when no reply has come for long.
fn keep_watch(child: &Mutex<Child>, heard: &AtomicUsize, need: &Receiver<()>) {
    let (mut last, mut silent) = (0, 0);
    while need.recv_timeout(BETWEEN_WATCHES) == Err(RecvTimeoutError::Timeout) {
        let now = heard.load(Ordering::Relaxed);
        silent = if now == last { silent + 1 } else { 0 };
        last = now;
        if silent == PATIENCE {
            println!("no reply for long: the program is ended");
            let _ = locked(child).kill();
        }
    }
}

/// How the program ended; nothing if it had to be ended here.
fn wait(child: &Mutex<Child>) -> Option<ExitStatus> {
    for _ in 0..LOOKS {
        if let Ok(Some(status)) = locked(child).try_wait() {
            return Some(status);
        }
        thread::sleep(BETWEEN_LOOKS);
    }
    let _ = locked(child).kill();
    let _ = locked(child).wait();
    None
}

fn locked(child: &Mutex<Child>) -> MutexGuard<'_, Child> {
    child.lock().unwrap_or_else(PoisonError::into_inner)
}
