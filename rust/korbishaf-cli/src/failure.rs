//! Why a command did not do what it was asked to.

/// A failure: its exit status, and its words for standard error, which are empty where all is said already.
#[derive(Debug, PartialEq, Eq)]
pub enum Failure {
    /// A file, a sheet or a key is refused, or a file not verified.
    Refused(String),
    /// The command is not used as it should be.
    Usage(String),
    /// Something was not read or written.
    Io(String),
}

impl Failure {
    /// What went wrong with a file, as the system says it.
    pub fn io(name: &str, error: &std::io::Error) -> Self {
        Failure::Io(format!("{name}: {}", system_words(error)))
    }

    /// The exit status.
    pub fn status(&self) -> u8 {
        match self {
            Failure::Refused(_) => 1,
            Failure::Usage(_) => 2,
            Failure::Io(_) => 3,
        }
    }

    /// The words.
    pub fn words(&self) -> &str {
        match self {
            Failure::Refused(words) | Failure::Usage(words) | Failure::Io(words) => words,
        }
    }
}

/// The system's words for an error, without the number that Rust puts behind them.
fn system_words(error: &std::io::Error) -> String {
    let words = error.to_string();
    match words.find(" (os error ") {
        Some(end) => words[..end].to_string(),
        None => words,
    }
}
