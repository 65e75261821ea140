//! `judge`: whether a given set of atoms is a fitting of a ticket, and where a rule gives out in it.

use crate::answer::answer;
use crate::arguments::{Arguments, Command};
use crate::ending::{Ending, Failure, Status};
use crate::instance::{self, Told};
use crate::json::{self, Json};
use crate::library::{self, Judged};
use crate::source::{self, Accepted, Source};

pub const COMMAND: Command = Command { name: "judge", text: include_str!("help/judge.txt"), run };

fn run(arguments: &Arguments) -> Result<Ending, Failure> {
    let accepted = Source::open(arguments.file(0))?.accepted()?;
    let file = arguments.file(1);
    let marks = answer(&source::called(file), &source::bytes(file)?, &accepted)?;
    if let Some(words) = arguments.option("--at") {
        return Ok(printed(arguments, &accepted, instance::at(&words.to_string_lossy(), &accepted, &marks)?));
    }
    match library::judge(&accepted.table, &marks)? {
        Judged::Fitting if arguments.has("--json") => Ok(json::ending("judge", "fitting", Status::Good, Vec::new())),
        Judged::Fitting => Ok(Ending::new(Status::Good, "fitting\n")),
        Judged::Violated(clause, values) => Ok(printed(arguments, &accepted, instance::violated(&accepted, &marks, clause, &values)?)),
        Judged::BadAnswer => Err(instance::bad_answer()),
    }
}

/// What is said of an instance.
fn printed(arguments: &Arguments, accepted: &Accepted, told: Told) -> Ending {
    let Told { verdict, clause, values, hold, words } = told;
    let status = if verdict == "violated" { Status::Refused } else { Status::Good };
    if arguments.has("--json") {
        let more = accepted.instance_fields(clause, &values).into_iter().chain([("hold", Json::number(hold))]).collect();
        return json::ending("judge", verdict, status, more);
    }
    Ending::new(status, format!("{verdict}: {words}"))
}
