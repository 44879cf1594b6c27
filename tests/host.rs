// A built example host, whose path is the test's argument: its runs, and what each must give on standard output and standard error, with
// which status.

use std::fs::File;
use std::io::Write;
use std::process::{exit, Command, Output, Stdio};

pub struct Host {
    name: &'static str,
    path: String,
}

pub fn tabbed(line: &str) -> String {
    line.replace(' ', "\t")
}

impl Host {
    pub fn new(name: &'static str) -> Host {
        let path = std::env::args().nth(1).unwrap_or_default();
        let host = Host { name, path };
        if host.path.is_empty() {
            host.fail("the path of the built program is missing");
        }
        host
    }

    pub fn fail(&self, what: &str) -> ! {
        println!("{}: {what}", self.name);
        exit(1);
    }

    pub fn read(&self, path: &str) -> String {
        std::fs::read_to_string(path).unwrap_or_else(|error| self.fail(&format!("{path}: {error}")))
    }

    fn command(&self, arguments: &[&str]) -> Command {
        let mut command = Command::new(&self.path);
        command.args(arguments);
        command
    }

    fn finish(&self, mut command: Command, input: &[u8]) -> Output {
        command.stdin(Stdio::piped()).stderr(Stdio::piped());
        let run = command.spawn().and_then(|mut child| {
            // A host that reads nothing may have ended.
            let _ = child.stdin.take().map(|mut stdin| stdin.write_all(input));
            child.wait_with_output()
        });
        run.unwrap_or_else(|error| self.fail(&format!("{command:?}: {error}")))
    }

    // With a file or a folder as its standard input.
    pub fn run_reading(&self, path: &str, arguments: &[&str]) -> Output {
        let input = File::open(path).unwrap_or_else(|error| self.fail(&format!("{path}: {error}")));
        let mut command = self.command(arguments);
        command.stdin(input).output().unwrap_or_else(|error| self.fail(&format!("{command:?}: {error}")))
    }

    pub fn run(&self, arguments: &[&str], input: &[u8]) -> Output {
        let mut command = self.command(arguments);
        command.stdout(Stdio::piped());
        self.finish(command, input)
    }

    pub fn run_with_full_output(&self, arguments: &[&str], input: &[u8]) -> Output {
        let full = File::options().write(true).open("/dev/full").unwrap_or_else(|error| self.fail(&format!("/dev/full: {error}")));
        let mut command = self.command(arguments);
        command.stdout(full);
        self.finish(command, input)
    }

    pub fn run_with_closed_output(&self, arguments: &[&str], input: &[u8]) -> Output {
        let mut command = Command::new("sh");
        command.args(["-c", "exec \"$0\" \"$@\" >&-", &self.path]).args(arguments).stdout(Stdio::piped());
        self.finish(command, input)
    }

    pub fn expect(&self, what: &str, got: &Output, status: i32, output: &str, errors: &str) {
        if got.status.code() != Some(status) {
            self.fail(&format!("{what}: {}, not {status}", got.status));
        }
        for (name, got, expected) in [("output", &got.stdout, output), ("error", &got.stderr, errors)] {
            if got != expected.as_bytes() {
                self.fail(&format!("{what}: standard {name} is\n{}and not\n{expected}", String::from_utf8_lossy(got)));
            }
        }
    }
}
