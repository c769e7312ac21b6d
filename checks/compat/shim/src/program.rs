//! One process of `replay trace`: a call goes in, its reply and the view after it come out.
use std::env;
use std::io::{BufRead, BufReader, Error, Read, Result, Write};
use std::process::{Child, ChildStdin, ChildStdout, Command, Stdio};
use std::thread;

use crate::view::View;

#[derive(Debug)]
pub(crate) struct Program {
    process: Child,
    /// `None` once the process is to end.
    input: Option<ChildStdin>,
    output: BufReader<ChildStdout>,
    /// Nothing more is asked of a program that failed.
    has_failed: bool,
}

impl Program {
    /// Starts the process of a channel of this capacity.
    pub(crate) fn open(capacity: usize) -> Result<Program> {
        let path = env::var_os("REPLAY")
            .ok_or_else(|| Error::other("the variable REPLAY doesn't name the program"))?;
        let mut process = Command::new(path)
            .arg("trace")
            .stdin(Stdio::piped())
            .stdout(Stdio::piped())
            .spawn()?;
        let output = process
            .stdout
            .take()
            .ok_or_else(|| Error::other("it has no output"))?;
        let mut program = Program {
            input: process.stdin.take(),
            output: BufReader::new(output),
            process,
            has_failed: false,
        };
        let opened = program.open_channel(&format!("open {capacity} 0"));
        program.has_failed = opened.is_err();
        opened.map(|()| program)
    }

    fn open_channel(&mut self, line: &str) -> Result<()> {
        self.write(&format!("{line}\n"))?;
        let answer = self.read_line()?;
        if answer == line {
            Ok(())
        } else {
            Err(Error::other(format!("{line}: answered by {answer:?}")))
        }
    }

    /// The reply to a call, and the view after it.
    pub(crate) fn ask(&mut self, call: &str) -> Result<(String, View)> {
        if self.has_failed {
            return Err(Error::other(format!("{call}: the program failed before")));
        }
        let answer = self.reply_and_view(call);
        self.has_failed = answer.is_err();
        answer
    }

    fn reply_and_view(&mut self, call: &str) -> Result<(String, View)> {
        self.write(&format!("{call}\n=\n"))?;
        let answer = self.read_line()?;
        let reply = answer
            .strip_prefix(call)
            .and_then(|rest| rest.strip_prefix(" -> "))
            .ok_or_else(|| Error::other(format!("{call}: answered by {answer:?}")))?;
        let line = self.read_line()?;
        let view =
            View::parse(&line).ok_or_else(|| Error::other(format!("not a view: {line:?}")))?;
        Ok((reply.to_owned(), view))
    }

    fn write(&mut self, text: &str) -> Result<()> {
        let input = self
            .input
            .as_mut()
            .ok_or_else(|| Error::other("it has no input"))?;
        input.write_all(text.as_bytes())
    }

    fn read_line(&mut self) -> Result<String> {
        let mut line = String::new();
        self.output.read_line(&mut line)?;
        match line.strip_suffix('\n') {
            Some(line) => Ok(line.to_owned()),
            None => Err(Error::other(format!("the program ended after {line:?}"))),
        }
    }

    /// Ends the process, which must have nothing more to say.
    fn end(&mut self) -> Result<()> {
        drop(self.input.take());
        let mut rest = String::new();
        self.output.read_to_string(&mut rest)?;
        let status = self.process.wait()?;
        if status.success() && rest.is_empty() {
            Ok(())
        } else {
            Err(Error::other(format!(
                "the program ended with {status}, after {rest:?}"
            )))
        }
    }
}

impl Drop for Program {
    fn drop(&mut self) {
        if let Err(fault) = self.end() {
            assert!(self.has_failed || thread::panicking(), "replay: {fault}");
        }
    }
}
