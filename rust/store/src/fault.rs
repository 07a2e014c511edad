//! Fault injection: making a process stop or fail between any two of its steps on the file system, for tests.
//!
//! Every operation that alters or syncs a file goes through [`step`], which numbers them, from 1, through the whole process. The
//! environment variable [`VARIABLE`] says what to do before one of them:
//!
//! | value | effect |
//! |---|---|
//! | `abort@n` | the process ends before step n, with nothing tidied up |
//! | `fail@n` | step n is not made and fails with an error |
//! | `deny@n` | step n is not made and fails as where it is not permitted |
//! | `pause@n` | the process says so and stands still before step n, until it is killed |
//! | `log` | each step is named on standard error |
//!
//! A value that is none of these makes every step fail, so that a test with a misspelt one does not pass for no reason.
//!
//! All this is only in builds with debug assertions, as those of tests are. In a release build the steps are just made, and
//! the variable means nothing.

#[cfg(debug_assertions)]
pub use injected::step;

/// Makes one step.
#[cfg(not(debug_assertions))]
pub fn step<T>(_: &str, operation: impl FnOnce() -> std::io::Result<T>) -> std::io::Result<T> {
    operation()
}

/// The name of the environment variable.
pub const VARIABLE: &str = "PEVGHAZO_FAULT";

/// The steps with what was planned against them.
#[cfg(debug_assertions)]
mod injected {
    use std::io;
    use std::sync::OnceLock;
    use std::sync::atomic::{AtomicU64, Ordering};
    use std::time::Duration;

    use super::VARIABLE;

    /// What the variable asks for.
    #[derive(Clone, Copy, Debug, PartialEq, Eq)]
    enum Plan {
        None,
        Log,
        Abort(u64),
        Fail(u64),
        Deny(u64),
        Pause(u64),
        Unknown,
    }

    /// The plan in a value of the variable.
    fn parse(value: Option<&str>) -> Plan {
        let Some(value) = value else { return Plan::None };
        if value == "log" {
            return Plan::Log;
        }
        let number = |text: &str| text.parse().ok().filter(|n| *n > 0);
        match value.split_once('@') {
            Some(("abort", n)) => number(n).map_or(Plan::Unknown, Plan::Abort),
            Some(("fail", n)) => number(n).map_or(Plan::Unknown, Plan::Fail),
            Some(("deny", n)) => number(n).map_or(Plan::Unknown, Plan::Deny),
            Some(("pause", n)) => number(n).map_or(Plan::Unknown, Plan::Pause),
            _ => Plan::Unknown,
        }
    }

    /// The plan of this process.
    fn plan() -> Plan {
        static PLAN: OnceLock<Plan> = OnceLock::new();
        *PLAN.get_or_init(|| match std::env::var(VARIABLE) {
            Ok(value) => parse(Some(&value)),
            Err(std::env::VarError::NotPresent) => parse(None),
            Err(std::env::VarError::NotUnicode(_)) => Plan::Unknown,
        })
    }

    /// Makes one step, unless the plan is against it. Programs that write something after a commit put that through here as well.
    pub fn step<T>(name: &str, operation: impl FnOnce() -> io::Result<T>) -> io::Result<T> {
        static STEPS: AtomicU64 = AtomicU64::new(0);
        let number = STEPS.fetch_add(1, Ordering::Relaxed) + 1;
        match plan() {
            Plan::Log => eprintln!("step {number}: {name}"),
            Plan::Abort(n) if n == number => std::process::abort(),
            Plan::Fail(n) if n == number => return Err(io::Error::other(format!("step {number} was made to fail"))),
            Plan::Deny(n) if n == number => return Err(io::ErrorKind::PermissionDenied.into()),
            Plan::Pause(n) if n == number => {
                eprintln!("paused before step {number}");
                loop {
                    std::thread::sleep(Duration::from_secs(3_600));
                }
            }
            Plan::Unknown => return Err(io::Error::other(format!("the variable {VARIABLE} is not understood"))),
            _ => {}
        }
        operation()
    }

    #[cfg(test)]
    mod tests {
        use super::*;

        #[test]
        fn values_of_the_variable() {
            assert_eq!(parse(None), Plan::None);
            assert_eq!(parse(Some("log")), Plan::Log);
            assert_eq!(parse(Some("abort@3")), Plan::Abort(3));
            assert_eq!(parse(Some("fail@10")), Plan::Fail(10));
            assert_eq!(parse(Some("deny@2")), Plan::Deny(2));
            assert_eq!(parse(Some("pause@1")), Plan::Pause(1));
            for bad in ["", "abort", "abort@", "abort@0", "abort@x", "stop@1", "fail@-1", "abort 3"] {
                assert_eq!(parse(Some(bad)), Plan::Unknown, "{bad}");
            }
        }
    }
}
