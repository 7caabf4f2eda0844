//! The program that the crate `speed` is, asked over pipes.

use crate::requests::Request;
use oracle::numbers::{double, write_number};
use std::io::{BufRead, BufReader, Write};
use std::process::{Child, ChildStdin, ChildStdout, Command, Stdio};

pub struct Library {
    program: Child,
    requests: ChildStdin,
    answers: BufReader<ChildStdout>,
}

impl Library {
    pub fn start(program: &str) -> Library {
        let mut program = Command::new(program)
            .stdin(Stdio::piped())
            .stdout(Stdio::piped())
            .spawn()
            .unwrap_or_else(|e| panic!("{program}: {e}"));
        Library {
            requests: program.stdin.take().expect("it is piped"),
            answers: BufReader::new(program.stdout.take().expect("it is piped")),
            program,
        }
    }

    /// Waits for the answer.
    pub fn ask(&mut self, r: &Request) -> f64 {
        let mut lines = Vec::new();
        write_request(&mut lines, r);
        self.requests.write_all(&lines).expect("it reads");
        let mut line = String::new();
        self.answers.read_line(&mut line).expect("it answers");
        double(line.trim_end().parse().expect("it answers a number"))
    }

    /// At the end of its input it ends.
    pub fn stop(mut self) {
        drop(self.requests);
        self.program.wait().expect("it ends");
    }
}

pub fn write_request(output: &mut impl Write, r: &Request) {
    for n in r.numbers() {
        write_number(output, n).expect("it is written");
    }
}
