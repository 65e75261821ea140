//! Ctrl-C on long walks of ./lutsamik, and worse. A walk that is stopped says how far it came, and leaves with --save the very file of a single run
//! under so many entries; the command that it proposes goes on to the end. Whatever ends the tool, the session's file is whole.

use std::fs;
use std::io::{Read, Write};
use std::os::unix::process::ExitStatusExt;
use std::process::{Child, Command, Output, Stdio};
use std::thread::sleep;
use std::time::Duration;

const ENDLESS: &str = "tests/tool_cases/endless.rules";
const ENDLESS_LIMIT: u32 = 4_000_000_000;
const LONG: &str = "examples/logos.rules";
const MOST: &str = "4294967295";
const OUT: &str = "target/tests/tool/";

const SIGINT: i32 = 2;
const SIGKILL: i32 = 9;
const DEFAULT: usize = 0;
const IGNORED: usize = 1;

extern "C" {
    fn signal(number: i32, handler: usize) -> usize;
    fn kill(process: i32, number: i32) -> i32;
}

/// A command that runs, and does not outlive the test.
struct Running(Child);

impl Running {
    fn output(&mut self) -> Output {
        let (mut stdout, mut stderr) = (Vec::new(), Vec::new());
        self.0.stdout.take().map(|mut pipe| pipe.read_to_end(&mut stdout));
        self.0.stderr.take().map(|mut pipe| pipe.read_to_end(&mut stderr));
        Output { status: self.0.wait().expect("the command ends"), stdout, stderr }
    }
}

impl Drop for Running {
    fn drop(&mut self) {
        let _ = self.0.kill();
        let _ = self.0.wait();
    }
}

/// What a stopped tool says of its walk.
struct Stopped {
    count: u32,
    depth: u32,
    most: u32,
    next: String,
}

fn main() {
    listen(DEFAULT);
    let session = fresh("long");
    let long = started(tool(&["fit", "--engine", "magic", "--save", &session, ENDLESS]), &session, 0);
    saved_and_resumed();
    to_the_end();
    at_a_terminal();
    unsaved();
    at_any_time();
    written_meanwhile(long, &session);
    deaf();
    println!("stopped: all as it must be");
}

/// How the tools that are started from now on take Ctrl-C at first.
fn listen(handler: usize) {
    unsafe { signal(SIGINT, handler) };
}

/// Types Ctrl-C, and waits for the end.
fn stop(mut tool: Running) -> Output {
    send(&tool, SIGINT);
    tool.output()
}

fn send(tool: &Running, number: i32) {
    assert_eq!(0, unsafe { kill(tool.0.id() as i32, number) }, "the tool has ended too soon");
}

fn run(mut command: Command) -> Running {
    Running(command.spawn().expect("the command runs"))
}

fn tool(words: &[&str]) -> Command {
    let mut command = Command::new("./lutsamik");
    command.args(words).stdin(Stdio::null()).stdout(Stdio::piped()).stderr(Stdio::piped());
    command
}

fn ran(words: &[&str]) -> Output {
    run(tool(words)).output()
}

/// Starts a command, and waits until the tool has written its session, and then so long.
fn started(command: Command, session: &str, milliseconds: u64) -> Running {
    let written = || fs::metadata(session).ok().filter(|there| there.len() > 0).and_then(|there| there.modified().ok());
    let before = written();
    let mut running = run(command);
    while written() == before {
        assert!(running.0.try_wait().expect("the command is asked").is_none(), "it ended without a session");
        sleep(Duration::from_millis(1));
    }
    sleep(Duration::from_millis(milliseconds));
    running
}

/// What a tool says that Ctrl-C has stopped: nothing of a verdict, and how far it came.
fn told(output: Output) -> Stopped {
    assert_eq!(Some(SIGINT), output.status.signal(), "a shell must see that Ctrl-C ended the tool");
    assert_eq!("", text(&output.stdout));
    let said = text(&output.stderr);
    let (far, next) = said.trim_end().split_once("; ").expect("how far, and what next");
    let words: Vec<&str> = far.split([' ', ',']).collect();
    let ["lutsamik:", "stopped", "by", "Ctrl-C", "after", count, "of", "at", "most", most, "entries", "", "at", "depth", depth] = words[..] else {
        panic!("{said}")
    };
    let [count, most, depth] = [count, most, depth].map(|digits| digits.parse().expect("a number"));
    Stopped { count, depth, most, next: next.to_string() }
}

fn text(bytes: &[u8]) -> String {
    String::from_utf8(bytes.to_vec()).expect("what the tool says is UTF-8")
}

/// What a tool prints, without the memory that it took, and without whether the deepest path was entered in an earlier run.
fn unmeasured(output: &Output) -> String {
    let printed = text(&output.stdout).replace(", in an earlier run", "");
    printed.lines().filter(|line| !line.starts_with("memory")).map(|line| format!("{line}\n")).collect()
}

fn fresh(name: &str) -> String {
    let file = format!("{OUT}{name}.session");
    let _ = fs::remove_file(&file);
    file
}

fn read(file: &str) -> String {
    fs::read_to_string(file).expect("the session's file is there")
}

/// That a session is the one that a single run leaves after so many entries.
fn is_of_one_run(session: &str, count: u32) {
    let single = fresh("single");
    let output = ran(&["fit", "--engine", "magic", "--limit", &count.to_string(), "--save", &single, ENDLESS]);
    assert_eq!(Some(30), output.status.code(), "{}", text(&output.stderr));
    assert_eq!(read(&single), read(session), "the session of a single run with {count} entries");
}

fn count_in(session: &str) -> u32 {
    let count = read(session).lines().find_map(|line| line.strip_prefix("count: ").map(str::to_string));
    count.expect("a line with the count").parse().expect("a number")
}

/// Stopped, resumed and stopped again.
fn saved_and_resumed() {
    let session = fresh("stopped");
    let first = started(tool(&["fit", "--save", &session, ENDLESS]), &session, 300);
    let first = told(stop(first));
    assert_eq!(ENDLESS_LIMIT, first.most);
    assert!(first.count > 0 && read(&session).contains(&format!("\ncount: {}\npath: {}\n", first.count, first.depth)));
    let further = (ENDLESS_LIMIT - first.count).to_string();
    assert_eq!(format!("to go on: ./lutsamik resume {session} {ENDLESS} --further {further}"), first.next);
    is_of_one_run(&session, first.count);

    let second = started(tool(&["resume", &session, ENDLESS, "--further", &further, "--engine", "magic"]), &session, 300);
    let second = told(stop(second));
    assert_eq!(ENDLESS_LIMIT, second.most);
    assert!(second.count > first.count && second.next.ends_with(&format!(" --further {} --engine magic", ENDLESS_LIMIT - second.count)));
    is_of_one_run(&session, second.count);
}

/// The command that is proposed goes on to where a single run ends.
fn to_the_end() {
    let (session, whole) = (fresh("to_the_end"), fresh("whole"));
    let first = started(tool(&["fit", "--engine", "relevancy", "--limit", MOST, "--save", &session, LONG]), &session, 0);
    let first = told(stop(first));
    let command = first.next.strip_prefix("to go on: ").expect("a command");
    let resumed = Command::new("bash").args(["-c", command]).output().expect("bash runs");
    let single = ran(&["fit", "--engine", "magic", "--limit", MOST, "--save", &whole, LONG]);
    assert_eq!(Some(20), resumed.status.code(), "{}", text(&resumed.stderr));
    assert_eq!(unmeasured(&single).replace(&whole, &session).replace("magic", "relevancy"), unmeasured(&resumed));
    assert_eq!(read(&whole), read(&session));
}

/// Typed on a terminal, where the line that shows how far it is must be gone before the tool says so.
fn at_a_terminal() {
    let session = fresh("terminal");
    let mut command = Command::new("script");
    command.args(["-qec", &format!("./lutsamik fit --save {session} {ENDLESS}"), "/dev/null"]).stdin(Stdio::piped()).stdout(Stdio::piped());
    let mut typed = started(command, &session, 1000);
    typed.0.stdin.as_mut().expect("a pipe").write_all(b"\x03").expect("the terminal takes a key");
    let said = text(&typed.output().stdout);
    let (drawn, stopped) = said.rsplit_once("\r\x1b[K").expect("a line that is taken away");
    assert!(drawn.contains(&format!(" of at most {ENDLESS_LIMIT} entries, ")), "{said}");
    assert!(stopped.starts_with(&format!("lutsamik: stopped by Ctrl-C after {} of", count_in(&session))), "{said}");
}

/// Without a session. Where Ctrl-C comes before the tool has begun with the walk, it says nothing, and is left more time.
fn unsaved() {
    let stopped = |milliseconds| {
        let tool = run(tool(&["fit", ENDLESS]));
        sleep(Duration::from_millis(milliseconds));
        stop(tool)
    };
    let output = [300, 1000, 5000, 30000].into_iter().map(stopped).find(|output| !output.stderr.is_empty());
    let stopped = told(output.expect("the tool says how far it came"));
    assert_eq!(ENDLESS_LIMIT, stopped.most);
    assert_eq!("with --save SESSION it could be resumed", stopped.next);
}

/// Two Ctrl-C, or an end without warning: the session is whole, though it may be of some time before.
fn at_any_time() {
    for (i, signals) in [&[SIGINT, SIGINT][..], &[SIGKILL]].iter().cycle().take(12).enumerate() {
        let session = fresh("any_time");
        let mut ended = started(tool(&["fit", "--save", &session, ENDLESS]), &session, 7 * i as u64);
        signals.iter().for_each(|number| send(&ended, *number));
        assert_eq!(Some(signals[0]), ended.output().status.signal());
        let output = ran(&["resume", &session, ENDLESS, "--further", "0"]);
        assert_eq!(Some(30), output.status.code(), "{}", text(&output.stderr));
        is_of_one_run(&session, count_in(&session));
    }
}

/// A long walk writes its session from time to time.
fn written_meanwhile(mut long: Running, session: &str) {
    for _ in 0..600 {
        if count_in(session) > 0 {
            break;
        }
        sleep(Duration::from_millis(100));
    }
    send(&long, SIGKILL);
    long.output();
    let count = count_in(session);
    assert!(count > 0, "no session was written in a minute");
    let output = ran(&["resume", session, ENDLESS, "--further", "0"]);
    assert!(text(&output.stdout).contains(&format!("\nentries: {count} of at most {count}\n")), "{}", text(&output.stderr));
}

/// A tool that is started deaf to Ctrl-C, as one in the background is, stays so.
fn deaf() {
    listen(IGNORED);
    let session = fresh("deaf");
    let mut tool = started(tool(&["fit", "--save", &session, ENDLESS]), &session, 100);
    send(&tool, SIGINT);
    sleep(Duration::from_millis(500));
    assert!(tool.0.try_wait().expect("the tool is asked").is_none(), "the tool was deaf");
    send(&tool, SIGKILL);
    assert_eq!("", text(&tool.output().stderr));
}
