//! A program under test, with a run file as its standard input.

use super::feed::{feed, pipe};
use crate::failure::Failure;
use crate::make_up::pieces::Pieces;
use crate::printings::Printing;
use std::fs::File;
use std::io;
use std::path::{Path, PathBuf};
use std::process::{Child, Command, Output, Stdio};
use std::thread::{Scope, ScopedJoinHandle};

pub struct Program {
    pub printing: &'static Printing,
    pub path: PathBuf,
}

/// It runs, and perhaps something feeds it.
pub struct Running<'scope> {
    child: Child,
    feeder: Option<ScopedJoinHandle<'scope, io::Result<()>>>,
}

impl Program {
    /// On the file that stands at `input`, or on its bytes in pieces.
    pub fn start<'scope>(
        &self,
        scope: &'scope Scope<'scope, '_>,
        input: &Path,
        file: &'scope [u8],
        pieces: Option<Pieces>,
    ) -> io::Result<Running<'scope>> {
        let Some(pieces) = pieces else {
            let child = self.spawn(File::open(input)?.into())?;
            let feeder = None;
            return Ok(Running { child, feeder });
        };
        let (reader, writer) = pipe(pieces)?;
        let child = self.spawn(reader.into())?;
        let feeder = Some(scope.spawn(move || feed(writer, file, pieces)));
        Ok(Running { child, feeder })
    }

    pub fn trouble(&self, error: io::Error) -> Failure {
        Failure::Said(format!("run file for {}: {error}", self.path.display()))
    }

    /// No end of its input stays open here: it could not be told that there is no
    /// more, nor we that it reads no further.
    fn spawn(&self, input: Stdio) -> io::Result<Child> {
        Command::new(&self.path)
            .stdin(input)
            .stdout(Stdio::piped())
            .stderr(Stdio::piped())
            .spawn()
    }
}

impl Running<'_> {
    pub fn output(self) -> io::Result<Output> {
        let output = self.child.wait_with_output()?;
        if let Some(feeder) = self.feeder {
            feeder.join().expect("a feeder does not panic")?;
        }
        Ok(output)
    }
}
