//! How a command ends: with what it prints and a status, or with a failure in one line.

/// The program's exit statuses, with 10 and 20 as SAT solvers have them. `help` lists them.
#[derive(Clone, Copy, Debug, PartialEq, Eq)]
pub enum Status {
    Good = 0,
    Refused = 1,
    Usage = 2,
    Disagreement = 3,
    Fits = 10,
    NoneWithSome = 15,
    None = 20,
    Spent = 30,
    Stopped = 130,
}

/// What goes to standard output, and the status.
pub struct Ending {
    pub printed: Vec<u8>,
    pub status: Status,
}

/// What goes to standard error in place of an ending, and the status.
#[derive(Debug)]
pub struct Failure {
    pub status: Status,
    pub message: String,
}

impl Ending {
    pub fn new(status: Status, printed: impl Into<Vec<u8>>) -> Ending {
        Ending { printed: printed.into(), status }
    }
}

impl Failure {
    /// The command line, or a file that it names, is not as it must be.
    pub fn usage(message: impl Into<String>) -> Failure {
        Failure { status: Status::Usage, message: message.into() }
    }

    pub fn refused(message: impl Into<String>) -> Failure {
        Failure { status: Status::Refused, message: message.into() }
    }

    /// Ctrl-C ended the walk before it was over.
    pub fn stopped(message: impl Into<String>) -> Failure {
        Failure { status: Status::Stopped, message: message.into() }
    }

    /// Two ways to the same answer do not agree: a defect of the tool or of the library, never of a ticket.
    pub fn disagreement(message: impl Into<String>) -> Failure {
        let message = format!("{} (a defect, not the ticket's fault: please report it with the ticket)", message.into());
        Failure { status: Status::Disagreement, message }
    }
}
