//! Programs over the proved library that read cases from standard input and
//! print an answer to each.

use crate::walks;
use second::script::ROOM;
use std::env;
use std::io::Write;
use std::path::{Path, PathBuf};
use std::process::{Command, Stdio};

/// A case in the form of a program, and what that has to print for it.
pub trait Case {
    fn script(&self) -> Vec<u8>;
    fn answer(&self) -> Vec<u8>;

    /// Asks of what was printed alone whether it can be right.
    fn hold(&self, _printed: &[u8]) -> Result<(), String> {
        Ok(())
    }
}

impl Case for second::script::Case {
    fn script(&self) -> Vec<u8> {
        self.script()
    }

    fn answer(&self) -> Vec<u8> {
        self.answer()
    }
}

impl Case for second::calls::Case {
    fn script(&self) -> Vec<u8> {
        self.script()
    }

    fn answer(&self) -> Vec<u8> {
        self.answer()
    }
}

impl Case for second::patches::Case {
    fn script(&self) -> Vec<u8> {
        self.script()
    }

    fn answer(&self) -> Vec<u8> {
        self.answer()
    }

    fn hold(&self, printed: &[u8]) -> Result<(), String> {
        walks::hold(self.form, self.start, printed)
    }
}

impl Case for second::deals::Case {
    fn script(&self) -> Vec<u8> {
        self.script()
    }

    fn answer(&self) -> Vec<u8> {
        self.answer()
    }
}

impl Case for second::symbolic::Case {
    fn script(&self) -> Vec<u8> {
        self.script()
    }

    fn answer(&self) -> Vec<u8> {
        self.answer()
    }
}

/// The program of a crate, unless the variable names another.
#[derive(Clone, Copy)]
pub struct Program {
    pub name: &'static str,
    pub variable: &'static str,
}

pub const VECTORS: Program = Program {
    name: "vectors",
    variable: "VECTORS",
};

pub const CALLS: Program = Program {
    name: "calls",
    variable: "CALLS",
};

pub const PATCHES: Program = Program {
    name: "patches",
    variable: "PATCHES",
};

pub const DEALS: Program = Program {
    name: "deals",
    variable: "DEALS",
};

pub const SYMBOLIC: Program = Program {
    name: "symbolic",
    variable: "SYMBOLIC",
};

/// The cases of one run of a program.
pub struct Batch<C> {
    program: Program,
    cases: Vec<C>,
    script: Vec<u8>,
    pub compared: usize,
}

impl<C: Case> Batch<C> {
    pub fn of(program: Program) -> Batch<C> {
        Batch {
            program,
            cases: Vec::new(),
            script: Vec::new(),
            compared: 0,
        }
    }

    /// Takes in one more, behind a run if the input holds no more.
    pub fn add(&mut self, case: C) -> Result<(), String> {
        let script = case.script();
        if self.script.len() + script.len() > ROOM {
            self.run()?;
        }
        self.script.extend(script);
        self.cases.push(case);
        Ok(())
    }

    /// Compares the cases, and starts again with none.
    pub fn run(&mut self) -> Result<(), String> {
        let printed = self.program.run(&self.script)?;
        compare(&self.cases, &printed)?;
        self.compared += self.cases.len();
        self.cases.clear();
        self.script.clear();
        Ok(())
    }
}

/// Holds what was printed for some cases to the answers.
pub fn compare<C: Case>(cases: &[C], printed: &[u8]) -> Result<(), String> {
    let mut rest = printed;
    for case in cases {
        let wanted = case.answer();
        let Some(behind) = rest.strip_prefix(&wanted[..]) else {
            let got = rest[..rest.len().min(wanted.len())].escape_ascii();
            let (text, wanted) = (case.script(), wanted.escape_ascii());
            let text = text.escape_ascii();
            return Err(format!("\"{text}\" gives\n\"{got}\", not\n\"{wanted}\""));
        };
        let failed = |error| format!("\"{}\": {error}", case.script().escape_ascii());
        case.hold(&rest[..wanted.len()]).map_err(failed)?;
        rest = behind;
    }
    if !rest.is_empty() {
        return Err(format!(
            "\"{}\" stands behind the answers",
            rest.escape_ascii()
        ));
    }
    Ok(())
}

impl Program {
    fn path(self) -> PathBuf {
        let crates = Path::new(env!("CARGO_MANIFEST_DIR")).join("../../crates");
        let usual = crates.join(self.name).join("out").join(self.name);
        env::var_os(self.variable).map_or(usual, PathBuf::from)
    }

    /// Runs the program on an input that is no longer than its room.
    pub fn run(self, script: &[u8]) -> Result<Vec<u8>, String> {
        let (name, path) = (self.name, self.path());
        let failed = |error| {
            let path = path.display();
            format!("{path}: {error}; `rt ci` builds it, or `rt run` in crates/{name}")
        };
        let mut child = Command::new(&path)
            .stdin(Stdio::piped())
            .stdout(Stdio::piped())
            .spawn()
            .map_err(failed)?;
        // The program reads all of its input before it prints.
        let mut input = child.stdin.take().ok_or("no standard input")?;
        input.write_all(script).map_err(failed)?;
        drop(input);
        let output = child.wait_with_output().map_err(failed)?;
        if !output.status.success() {
            return Err(format!("{name} ended with {}", output.status));
        }
        Ok(output.stdout)
    }
}
