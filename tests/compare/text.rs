//! What the printing program writes, and whether a text is what it may write.
//! Where several best sets exist each has a text, so a text is judged by its
//! meaning and not compared.

use crate::book::{read, Book};
use crate::compare::{judge, know, Accepted, Plan};
use crate::exact::{has_another_best, solve};
use crate::rules::{entries_by_rule, number_kept, NO_CUT};

fn render(book: &Book, plan: &Plan) -> String {
    let cut = if plan.cut == NO_CUT { "none".to_string() } else { plan.cut.to_string() };
    let mut text = format!("profit {} kept {} cut {cut}\n", plan.earnings, plan.kept);
    for (turn, (request, entry)) in book.requests.iter().zip(&plan.entries).enumerate() {
        text += &format!("{turn} {} {} {} {}\n", request.a, request.b, entry / 256, entry % 256);
    }
    text
}

/// A right text for a file, and whether there are others.
pub fn print(file: &[u8]) -> (String, bool) {
    let book = match read(file) {
        Ok(book) => book,
        Err(refusal) => return (format!("refused {} at {}\n", refusal.number, refusal.place), false),
    };
    let solved = solve(&book);
    let entries = match entries_by_rule(&book, &solved.best.kept, solved.cut) {
        Ok(entries) => entries,
        Err(turn) => return (format!("refused 15 at {turn}\n"), false),
    };
    let plan = Plan {
        earnings: solved.best.earnings,
        kept: number_kept(&entries),
        cut: solved.cut.map_or(NO_CUT, |span| span as u64),
        entries,
    };
    (render(&book, &plan), has_another_best(&book, &solved))
}

pub fn judge_text(file: &[u8], text: &[u8]) -> Result<(), String> {
    let text = std::str::from_utf8(text).map_err(|_| "not a text".to_string())?;
    match know(file).reading {
        Err(refusal) => {
            let right = format!("refused {} at {}\n", refusal.number, refusal.place);
            if text == right {
                Ok(())
            } else {
                Err(format!("should be {right:?}"))
            }
        }
        Ok(accepted) => judge_plan_text(&accepted, text),
    }
}

fn judge_plan_text(accepted: &Accepted, text: &str) -> Result<(), String> {
    let mut lines = text.lines();
    let head: Vec<&str> = lines.next().unwrap_or("").split(' ').collect();
    let ["profit", earnings, "kept", kept, "cut", cut] = head[..] else {
        return Err("the first line is no profit line".to_string());
    };
    let number = |word: &str| word.parse::<u64>().map_err(|_| format!("{word:?} is no number"));
    let mut entries = Vec::new();
    for line in lines {
        let words: Vec<&str> = line.split(' ').collect();
        let [_, _, _, way, channel] = words[..] else {
            return Err(format!("{line:?} is no request line"));
        };
        let (way, channel) = (number(way)?, number(channel)?);
        if way > 255 || channel > 255 {
            return Err(format!("{line:?} has no way and channel"));
        }
        entries.push((way * 256 + channel) as u16);
    }
    if entries.len() != accepted.book.requests.len() {
        return Err(format!("{} request lines for {} requests", entries.len(), accepted.book.requests.len()));
    }
    let cut = if cut == "none" { NO_CUT } else { number(cut)? };
    let plan = Plan { earnings: number(earnings)?, kept: number(kept)?, cut, entries };
    // Written anew from its numbers the text must come out the same.
    if render(&accepted.book, &plan) != text {
        return Err("the form of the text is not the one asked for".to_string());
    }
    judge(accepted, &plan)
}
