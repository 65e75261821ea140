//! A call of the library that makes its walks in one go. It runs in a thread of its own, so that the tool can look at Ctrl-C and the time meanwhile; where
//! it is not waited for to its end, the thread ends with the tool.

use crate::clock;
use crate::ending::Failure;
use crate::engines::STACK;
use crate::interrupt;
use crate::library::Engine;
use crate::progress::Line;
use std::sync::mpsc::{channel, Receiver, RecvTimeoutError};
use std::thread;
use std::time::Duration;

const BETWEEN: Duration = Duration::from_millis(50);

/// What all these engines say, side by side, which must be the same; nothing where the time is over before.
pub fn awaited<T, F>(engines: &[Engine], call: F, told: fn(&T) -> String) -> Result<Option<T>, Failure>
where
    T: PartialEq + Send + 'static,
    F: Fn(Engine) -> Result<T, Failure> + Clone + Send + 'static,
{
    let begin = |engine: Engine, call: F| begun(move || call(engine));
    let calls: Vec<Option<Receiver<Result<T, Failure>>>> = engines.iter().map(|engine| begin(*engine, call.clone())).collect();
    let mut said = Vec::new();
    for call in &calls {
        let Some(answer) = waited(call.as_ref())? else { return Ok(None) };
        said.push(answer?);
    }
    if said.iter().all(|other| *other == said[0]) {
        return Ok(Some(said.swap_remove(0)));
    }
    let told: Vec<String> = engines.iter().zip(&said).map(|(engine, said)| format!("{} says {}", engine.name(), told(said))).collect();
    Err(Failure::disagreement(format!("the engines disagree: {}", told.join(", "))))
}

/// A call that is under way from now on; nothing where the time is over already, so that no quick answer comes by chance.
pub fn begun<T: Send + 'static>(call: impl FnOnce() -> T + Send + 'static) -> Option<Receiver<T>> {
    if clock::is_over() {
        return None;
    }
    let (answered, told) = channel();
    // Nobody is there to be told where the tool has ended.
    let body = move || drop(answered.send(call()));
    thread::Builder::new().stack_size(STACK).spawn(body).expect("a thread");
    Some(told)
}

/// What a call has answered; nothing where the time is over before.
pub fn waited<T>(call: Option<&Receiver<T>>) -> Result<Option<T>, Failure> {
    let Some(call) = call else { return Ok(None) };
    let mut line = Line::new();
    loop {
        match call.recv_timeout(BETWEEN) {
            Ok(answer) => return Ok(Some(answer)),
            Err(RecvTimeoutError::Disconnected) => return Err(Failure::disagreement("an engine's thread ends without an answer")),
            Err(RecvTimeoutError::Timeout) if interrupt::is_asked() => return Err(Failure::stopped("stopped by Ctrl-C: nothing is answered")),
            Err(RecvTimeoutError::Timeout) if clock::is_over() => return Ok(None),
            Err(RecvTimeoutError::Timeout) => line.draw(|| format!("walking for {:.0} seconds", clock::seconds())),
        }
    }
}
