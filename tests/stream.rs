// Checks how the program los reads and writes, at the project's root; its path is the argument.
//   - LOS-1, LOS-2: crates/los/stdin gets crates/los/stdout, written at once and in pieces, with and without a last newline;
//   - LOS-3: many lines of varied length get what each gets by itself, and so do lines around the end of a block;
//   - LOS-1, LINE-5: an empty input prints nothing, and a line of ten million bytes is one malformed line;
//   - LOS-4: when its output can't be written, in the middle or at the end, it says so once and ends;
//   - LOS-4: when nobody reads its output, it ends and says nothing, whether SIGPIPE is ignored or not;
//   - LOS-4: when its input can't be read, from the first read on or in the middle of a line, it says so and answers no half line.

use std::fs::File;
use std::io::{BufRead, BufReader, Read, Write};
use std::os::fd::OwnedFd;
use std::os::unix::net::UnixStream;
use std::process::{exit, Child, ChildStdin, Command, ExitStatus, Stdio};
use std::sync::Arc;
use std::thread;
use std::time::{Duration, Instant};

const LIMIT: Duration = Duration::from_secs(120);
const MALFORMED: &[u8] = b"X\t15\n";
const UNREADABLE: &[u8] = b"los: standard input can't be read\n";
const UNWRITABLE: &[u8] = b"los: standard output can't be written\n";

struct Outcome {
    output: Vec<u8>,
    errors: Vec<u8>,
    status: ExitStatus,
}

fn fail(what: &str) -> ! {
    println!("stream: {what}");
    exit(1);
}

fn read_file(path: &str) -> Vec<u8> {
    std::fs::read(path).unwrap_or_else(|error| fail(&format!("{path}: {error}")))
}

fn start(command: Command) -> Child {
    start_with(command, Stdio::piped(), Stdio::piped())
}

// The command ends here, and with it this process's copies of the child's input and output.
fn start_with(mut command: Command, input: Stdio, output: Stdio) -> Child {
    let started = command.stdin(input).stdout(output).stderr(Stdio::piped()).spawn();
    started.unwrap_or_else(|error| fail(&format!("{command:?}: {error}")))
}

// LOS-3: writes the input in pieces until it is all written or nobody reads, then closes it.
fn feed(child: &mut Child, input: &Arc<Vec<u8>>, piece: usize) -> thread::JoinHandle<()> {
    let mut pipe = child.stdin.take().expect("piped");
    let input = Arc::clone(input);
    thread::spawn(move || {
        for part in input.chunks(piece) {
            if pipe.write_all(part).is_err() {
                break;
            }
        }
    })
}

// Writes the input, which has to fit in a pipe, and does not close it.
fn feed_without_end(child: &mut Child, input: &[u8]) -> ChildStdin {
    let mut pipe = child.stdin.take().expect("piped");
    pipe.write_all(input).ok();
    pipe
}

fn collect(mut pipe: impl Read + Send + 'static) -> thread::JoinHandle<Vec<u8>> {
    thread::spawn(move || {
        let mut bytes = Vec::new();
        pipe.read_to_end(&mut bytes).expect("a pipe can be read");
        bytes
    })
}

fn wait(child: &mut Child) -> ExitStatus {
    let begun = Instant::now();
    loop {
        if let Some(status) = child.try_wait().expect("a child can be waited for") {
            return status;
        }
        if begun.elapsed() > LIMIT {
            child.kill().ok();
            fail("los does not end");
        }
        thread::sleep(Duration::from_millis(1));
    }
}

fn run(los: &str, input: &Arc<Vec<u8>>, piece: usize) -> Outcome {
    let mut child = start(Command::new(los));
    let writer = feed(&mut child, input, piece);
    let output = collect(child.stdout.take().expect("piped"));
    let errors = collect(child.stderr.take().expect("piped"));
    let status = wait(&mut child);
    writer.join().expect("the writer ends");
    Outcome { output: output.join().expect("the reader ends"), errors: errors.join().expect("the reader ends"), status }
}

// Where two outputs part: the number of the line.
fn first_difference(got: &[u8], expected: &[u8]) -> usize {
    let mut got = got.split_inclusive(|&b| b == b'\n');
    let mut expected = expected.split_inclusive(|&b| b == b'\n');
    let mut line = 1;
    loop {
        match (got.next(), expected.next()) {
            (Some(a), Some(b)) if a == b => line += 1,
            _ => return line,
        }
    }
}

// LOS-2: an input must get this output and nothing on standard error, with status 0.
fn expect(what: &str, los: &str, input: &Arc<Vec<u8>>, piece: usize, expected: &[u8]) {
    let outcome = run(los, input, piece);
    if outcome.output != expected {
        fail(&format!("{what}, in pieces of {piece}: line {} of the output differs", first_difference(&outcome.output, expected)));
    }
    if !outcome.errors.is_empty() || !outcome.status.success() {
        fail(&format!("{what}, in pieces of {piece}: {}, {} bytes on standard error", outcome.status, outcome.errors.len()));
    }
}

// LOS-1, LOS-2: lines drawn from the vectors, each with its newline, and malformed ones of 0 to 199 bytes, with what they get.
fn many_lines(vectors: &[(&[u8], &[u8])], count: usize) -> (Vec<u8>, Vec<u8>) {
    let (mut input, mut expected) = (Vec::new(), Vec::new());
    let mut state = 1u32;
    for _ in 0..count {
        state = state.wrapping_mul(1_664_525).wrapping_add(1_013_904_223);
        let drawn = (state >> 16) as usize;
        let (line, answer) = vectors[drawn % vectors.len()];
        if drawn % 5 == 0 || line.len() > 200 && drawn % 7 > 0 {
            input.resize(input.len() + drawn / 5 % 200, b'7');
            expected.extend_from_slice(MALFORMED);
        } else {
            input.extend_from_slice(line);
            expected.extend_from_slice(answer);
        }
        input.push(b'\n');
    }
    (input, expected)
}

// LOS-3: a line that begins with a block, a line across a block's end, and a malformed line whose last bytes, from a block's start on, look like a
// line of their own; for blocks of 512 bytes to a mebibyte.
fn expect_around_blocks(los: &str, line: &[u8], answer: &[u8]) {
    for block in (9..=20).map(|bits| 1usize << bits) {
        for before in [block, block - line.len() / 2] {
            let mut input = vec![b'7'; before - 1];
            input.push(b'\n');
            input.extend_from_slice(line);
            let input = Arc::new(input);
            expect("a line around a block's end", los, &input, input.len(), &[MALFORMED, answer].concat());
        }
        let mut input = vec![b'7'; block];
        input.extend_from_slice(line);
        let input = Arc::new(input);
        expect("a line longer than a block", los, &input, input.len(), MALFORMED);
    }
}

// LOS-4: what los says when its output is always full, with status 0; what gives it its input is held until it has ended.
fn expect_full<Held>(what: &str, los: &str, give: impl FnOnce(&mut Child) -> Held, message: &[u8]) {
    let full = File::options().write(true).open("/dev/full").unwrap_or_else(|error| fail(&format!("/dev/full: {error}")));
    let mut child = start_with(Command::new(los), Stdio::piped(), Stdio::from(full));
    let held = give(&mut child);
    let errors = collect(child.stderr.take().expect("piped"));
    let status = wait(&mut child);
    drop(held);
    if errors.join().expect("the reader ends") != message {
        fail(&format!("{what}, output full: another message"));
    }
    if !status.success() {
        fail(&format!("{what}, output full: {status}"));
    }
}

// LOS-4: reads one line of the output and closes it while the input goes on; los says nothing, with status 0.
fn expect_closed(what: &str, command: Command, input: &Arc<Vec<u8>>, first: &[u8]) {
    let mut child = start(command);
    let writer = feed(&mut child, input, 65_536);
    let errors = collect(child.stderr.take().expect("piped"));
    let mut line = Vec::new();
    BufReader::new(child.stdout.take().expect("piped")).read_until(b'\n', &mut line).expect("a pipe can be read");
    let status = wait(&mut child);
    writer.join().expect("the writer ends");
    if line != first {
        fail(&format!("{what}: the first line differs"));
    }
    if !errors.join().expect("the reader ends").is_empty() {
        fail(&format!("{what}: a message"));
    }
    if !status.success() {
        fail(&format!("{what}: {status}"));
    }
}

// LOS-4: a folder can be opened and not read; the status is 0.
fn expect_unreadable(los: &str) {
    let folder = File::open(".").unwrap_or_else(|error| fail(&error.to_string()));
    let outcome = Command::new(los).stdin(folder).output().unwrap_or_else(|error| fail(&error.to_string()));
    if !outcome.stdout.is_empty() || outcome.stderr != UNREADABLE {
        fail("an input that can't be read: another output or message");
    }
    if !outcome.status.success() {
        fail(&format!("an input that can't be read: {}", outcome.status));
    }
}

// Reads as many bytes, closes the socket, and reads the rest.
fn collect_with_reset(mut pipe: impl Read + Send + 'static, count: usize, socket: UnixStream) -> thread::JoinHandle<Vec<u8>> {
    thread::spawn(move || {
        let mut bytes = Vec::new();
        pipe.by_ref().take(count as u64).read_to_end(&mut bytes).expect("a pipe can be read");
        drop(socket);
        pipe.read_to_end(&mut bytes).expect("a pipe can be read");
        bytes
    })
}

// LOS-4: the input is a socket. Its other end has a byte that nobody reads, so closing that end is a reset: after the bytes sent, reading fails.
// It is closed when the answer has come. No other process has that end, since sockets are closed when a child's program starts.
fn expect_reset(what: &str, los: &str, sent: &[u8], answer: &[u8]) {
    let (mut ours, mut theirs) = UnixStream::pair().unwrap_or_else(|error| fail(&error.to_string()));
    theirs.write_all(b"7").unwrap_or_else(|error| fail(&error.to_string()));
    let mut child = start_with(Command::new(los), Stdio::from(OwnedFd::from(theirs)), Stdio::piped());
    ours.write_all(sent).unwrap_or_else(|error| fail(&error.to_string()));
    let output = collect_with_reset(child.stdout.take().expect("piped"), answer.len(), ours);
    let errors = collect(child.stderr.take().expect("piped"));
    let status = wait(&mut child);
    if output.join().expect("the reader ends") != answer {
        fail(&format!("{what}, then a reset: another output"));
    }
    if errors.join().expect("the reader ends") != UNREADABLE || !status.success() {
        fail(&format!("{what}, then a reset: another message, or {status}"));
    }
}

fn main() {
    let Some(los) = std::env::args().nth(1) else { fail("usage: stream PATH-OF-LOS") };
    let input = Arc::new(read_file("crates/los/stdin"));
    let expected = read_file("crates/los/stdout");
    let lines: Vec<&[u8]> = input.split(|&b| b == b'\n').collect();
    let answers: Vec<&[u8]> = expected.split_inclusive(|&b| b == b'\n').collect();
    let vectors: Vec<(&[u8], &[u8])> = lines.iter().copied().zip(answers.iter().copied()).collect();
    if lines.len() != answers.len() {
        fail("crates/los/stdin and crates/los/stdout differ in their lines");
    }

    for piece in [1, 7, 4096, input.len()] {
        expect("the vectors", &los, &input, piece, &expected);
    }
    let ended = Arc::new([input.as_slice(), b"\n"].concat());
    expect("the vectors with a last newline", &los, &ended, ended.len(), &expected);

    let (many, many_expected) = many_lines(&vectors, 200_000);
    let many = Arc::new(many);
    for piece in [4096, 65_537, many.len()] {
        expect("many lines", &los, &many, piece, &many_expected);
    }

    expect_around_blocks(&los, lines[0], answers[0]);

    expect("an empty input", &los, &Arc::new(Vec::new()), 1, b"");
    expect("a newline", &los, &Arc::new(b"\n".to_vec()), 1, MALFORMED);
    let mut long = vec![b'7'; 10_000_000];
    expect("a long line", &los, &Arc::new(long.clone()), 65_536, MALFORMED);
    long.push(b'\n');
    long.extend_from_slice(lines[0]);
    expect("a line after a long one", &los, &Arc::new(long), 65_536, &[MALFORMED, answers[0]].concat());

    let first = many_expected.split_inclusive(|&b| b == b'\n').next().unwrap_or(b"");
    expect_closed("output closed", Command::new(&los), &many, first);
    let mut ignoring = Command::new("sh");
    ignoring.args(["-c", "trap '' PIPE; exec \"$0\"", &los]);
    expect_closed("output closed, SIGPIPE ignored", ignoring, &many, first);

    expect_full("many lines", &los, |child| feed(child, &many, 65_536), UNWRITABLE);
    expect_full("lines of an input without end", &los, |child| feed_without_end(child, &ended), UNWRITABLE);
    let last = Arc::new(lines[0].to_vec());
    expect_full("a last line without newline", &los, |child| feed(child, &last, last.len()), UNWRITABLE);
    expect_full("an empty input", &los, |child| feed(child, &Arc::new(Vec::new()), 1), b"");

    expect_unreadable(&los);
    let half = &lines[0][..lines[0].len() / 2];
    expect_reset("a line and half a line", &los, &[lines[0], b"\n", half].concat(), answers[0]);
    expect_reset("a line and a line without newline", &los, &[lines[0], b"\n", lines[0]].concat(), answers[0]);
    expect_reset("half a line", &los, half, b"");
    expect_reset("nothing", &los, b"", b"");

    print!("stream: {} vectors in pieces, 200000 lines, a line of 10000000 bytes, ", lines.len());
    println!("closed and full output, unreadable and reset input: all as expected");
}
