//! Performs calls on a subject and writes down what the crate says.

use std::panic::{self, AssertUnwindSafe};

use crate::subject::{Call, Malformed, Subject};

/// A subject, from one call to the next.
pub struct Session<S> {
    subject: Option<S>,
}

/// What the crate said to a call.
pub struct Reply {
    /// The state after the call.
    pub state: String,
    /// The answer, where the call has one.
    pub answer: Option<String>,
}

/// Why a call has no reply.
pub enum Failure {
    /// It is no call of the subject, or it comes before the first `new`.
    Malformed,
    /// The crate panicked, and said this in its first line.
    Panic(String),
}

impl Reply {
    /// The state and, where there is one, the answer.
    pub fn line(&self) -> String {
        match &self.answer {
            Some(answer) => format!("{} {answer}", self.state),
            None => self.state.clone(),
        }
    }
}

impl From<Malformed> for Failure {
    fn from(_: Malformed) -> Self {
        Self::Malformed
    }
}

impl<S: Subject> Session<S> {
    /// A session before its first `new`.
    pub fn new() -> Self {
        Self { subject: None }
    }

    /// Performs a call. Where it fails, the subject is as it was before.
    pub fn perform(&mut self, call: &Call) -> Result<Reply, Failure> {
        let (subject, reply) = catching(|| step(self.subject.as_ref(), call))??;
        self.subject = Some(subject);
        Ok(reply)
    }
}

/// The subject after a call, and what it said.
fn step<S: Subject>(subject: Option<&S>, call: &Call) -> Result<(S, Reply), Malformed> {
    let (next, answer) = match call.parts() {
        ("new", args) => (S::make(args)?, None),
        _ => {
            let mut next = subject.ok_or(Malformed)?.clone();
            let answer = next.perform(call)?;
            (next, answer)
        }
    };
    let state = next.state();
    Ok((next, Reply { state, answer }))
}

/// Runs the crate's code and catches its panic, without a word on standard error.
fn catching<T>(run: impl FnOnce() -> T) -> Result<T, Failure> {
    let hook = panic::take_hook();
    panic::set_hook(Box::new(|_| ()));
    let outcome = panic::catch_unwind(AssertUnwindSafe(run));
    panic::set_hook(hook);
    outcome.map_err(|payload| {
        let message = payload
            .downcast_ref::<String>()
            .map(String::as_str)
            .or(payload.downcast_ref::<&str>().copied())
            .and_then(|message| message.lines().next());
        Failure::Panic(message.unwrap_or("without a message").to_owned())
    })
}

/// Writes two lists, line by line: the calls, and what the crate said to each.
pub struct Recorder<S> {
    session: Session<S>,
    /// The calls.
    pub calls: String,
    /// The replies.
    pub replies: String,
    /// How many calls the crate panicked at. They are in neither list.
    pub left_out: usize,
}

impl<S: Subject> Recorder<S> {
    /// A recorder with empty lists.
    pub fn new() -> Self {
        Self {
            session: Session::new(),
            calls: String::new(),
            replies: String::new(),
            left_out: 0,
        }
    }

    /// The subject as it stands.
    ///
    /// # Panics
    /// Before the first `new`.
    pub fn subject(&self) -> &S {
        let subject = self.session.subject.as_ref();
        subject.expect("a sequence starts with `new`")
    }

    /// The subject as it would be after a call, which is not written down.
    ///
    /// # Panics
    /// Where this is no call of the subject, or the crate panics.
    pub fn after(&self, call: &str) -> S {
        let after = catching(|| step(Some(self.subject()), &Call::on(call)));
        match after {
            Ok(Ok((subject, _))) => subject,
            _ => panic!("no reply to: {call}"),
        }
    }

    /// Performs the call of that name, all of whose arguments are numbers, as `perform` does.
    pub fn call(&mut self, name: &str, args: &[u64]) -> Option<String> {
        let words: String = args.iter().map(|arg| format!(" {arg}")).collect();
        self.perform(&(name.to_owned() + &words))
    }

    /// Performs a call and writes it down with its reply. A call at which the crate panics is left
    /// out and changes nothing. The crate's answer, where the call has one.
    ///
    /// # Panics
    /// Where this is no call of the subject.
    pub fn perform(&mut self, call: &str) -> Option<String> {
        match self.session.perform(&Call::on(call)) {
            Ok(reply) => {
                self.calls += &format!("{call}\n");
                self.replies += &format!("{}\n", reply.line());
                reply.answer
            }
            Err(Failure::Panic(_)) => {
                self.left_out += 1;
                None
            }
            Err(Failure::Malformed) => panic!("no call of the subject: {call}"),
        }
    }
}
