//! Exit statuses, and how a command ends early.

use std::process::ExitCode;

/// In the order of weight: of several files the heaviest status counts.
#[derive(Clone, Copy, Debug, PartialEq, Eq, PartialOrd, Ord)]
pub enum Status {
    Good,
    /// For `judge --vacuous-fails`: holds only because nothing was owed.
    Vacuous,
    /// Some text is refused or given up; for `judge`: fails.
    Bad,
    /// Wrong usage, or a file that cannot be read or written.
    Unusable,
    /// For `judge`, whose 1 is `fails`.
    Refused,
}

impl From<Status> for ExitCode {
    fn from(status: Status) -> ExitCode {
        ExitCode::from(match status {
            Status::Good => 0,
            Status::Vacuous => 4,
            Status::Bad => 1,
            Status::Unusable => 2,
            Status::Refused => 3,
        })
    }
}

/// Why a command ends early: what is told, and its status.
pub struct Stop {
    pub message: String,
    pub status: Status,
}

impl Stop {
    pub fn unusable(message: impl AsRef<str>) -> Stop {
        Stop {
            message: format!("error: {}\n", message.as_ref()),
            status: Status::Unusable,
        }
    }
}

impl From<String> for Stop {
    fn from(message: String) -> Stop {
        Stop::unusable(message)
    }
}
