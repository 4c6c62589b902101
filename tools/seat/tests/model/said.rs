//! What commands say.

use std::fmt;

/// What a command said, or is to say.
#[derive(PartialEq, Eq)]
pub struct Said {
    pub status: Option<i32>,
    pub out: Vec<u8>,
    pub err: Vec<u8>,
}

impl fmt::Display for Said {
    fn fmt(&self, f: &mut fmt::Formatter<'_>) -> fmt::Result {
        let (out, err) = (self.out.escape_ascii(), self.err.escape_ascii());
        write!(f, "status {:?}, out `{out}`, err `{err}`", self.status)
    }
}

/// What a command that is done says, and the files that it leaves changed.
#[derive(Default)]
pub struct Done {
    pub out: Vec<u8>,
    pub err: Vec<u8>,
    pub files: Vec<(String, Vec<u8>)>,
}

impl Done {
    pub fn text(text: String) -> Done {
        Done {
            out: text.into_bytes(),
            ..Done::default()
        }
    }

    pub fn leaving(self, name: &str, bytes: Vec<u8>) -> Done {
        let mut files = self.files;
        files.push((name.into(), bytes));
        Done { files, ..self }
    }

    /// The changed form of a log that came on standard input; then the text goes aside.
    pub fn stream(self, bytes: Vec<u8>) -> Done {
        Done {
            out: bytes,
            err: self.out,
            files: self.files,
        }
    }

    pub fn said(&self) -> Said {
        Said {
            status: Some(0),
            out: self.out.clone(),
            err: self.err.clone(),
        }
    }
}

/// What the model makes of a command: done, or refused with a number.
pub type Foreseen<T = Done> = Result<T, u8>;

pub fn refused(number: u8) -> Said {
    Said {
        status: Some(1),
        out: Vec::new(),
        err: format!("refused {number}\n").into_bytes(),
    }
}
