//! The driver: makes lists of calls on the original, and writes them as text or for the rules.
//!
//!     driver show WHICH               the lists as text, with every answer and row
//!     driver tally WHICH              how often each kind of call and answer came
//!     driver lists FOLDER WHICH       antt files, a theorem for each list
//!     driver steps FOLDER N WHICH     antt files, theorems for each step of list N
//!     driver upto N STEP WHICH        list N as text up to a step, with the rows around that step
//!     driver shorter FOLDER SIZE FILE antt files, a theorem for each list that is left where SIZE calls are left out
//!     driver short N SIZE FILE        the Nth of these as text
//!
//! WHICH is `random LISTS CALLS SEED` or `file FILE`.
pub mod antt;
pub mod calls;
pub mod dice;
pub mod lists;
pub mod tally;
pub mod text;

use calls::List;
use std::process::ExitCode;

/// Lists to a file of antt.
const LISTS_A_FILE: usize = 25;

pub fn main() -> ExitCode {
    let words: Vec<String> = std::env::args().skip(1).collect();
    let words: Vec<&str> = words.iter().map(String::as_str).collect();
    match run(&words) {
        Ok(()) => ExitCode::SUCCESS,
        Err(why) => {
            eprintln!("{why}");
            ExitCode::from(2)
        }
    }
}

fn run(words: &[&str]) -> Result<(), String> {
    match words {
        ["show", which @ ..] => {
            for list in made(which)? {
                print!("{}", text::print(&list, list.made.len(), |_| true));
            }
        }
        ["tally", which @ ..] => print!("{}", tally::print(&made(which)?)),
        ["lists", folder, which @ ..] => write_lists(folder, &made(which)?)?,
        ["shorter", folder, size, file] => {
            let (list, size) = (nth("0", &["file", file])?, number(size)? as usize);
            let shorter = |n: usize| list.without(n * size..(n + 1) * size);
            write_lists(folder, &(0..list.made.len().div_ceil(size)).map(shorter).collect::<Vec<_>>())?;
        }
        ["short", n, size, file] => {
            let (n, size) = (number(n)? as usize, number(size)? as usize);
            let list = nth("0", &["file", file])?.without(n * size..(n + 1) * size);
            print!("{}", text::print(&list, list.made.len(), |_| false));
        }
        ["steps", folder, n, which @ ..] => {
            let list = nth(n, which)?;
            let names = antt::Names::of(&[&list]);
            write(folder, &names, vec![antt::steps(&names, &list)])?;
        }
        ["upto", n, step, which @ ..] => {
            let step = number(step)? as usize;
            print!("{}", text::print(&nth(n, which)?, step + 1, |i| i + 1 == step || i == step));
        }
        _ => return Err("usage: driver show|tally|lists|steps|upto ..".to_string()),
    }
    Ok(())
}

fn number(word: &str) -> Result<u64, String> {
    word.parse().map_err(|_| format!("{word} is not a number"))
}

fn made(which: &[&str]) -> Result<Vec<List>, String> {
    match which {
        ["random", lists, calls, seed] => {
            let (calls, seed) = (number(calls)? as usize, number(seed)?);
            Ok((0..number(lists)?).map(|i| lists::random(seed, i, calls)).collect())
        }
        ["file", file] => {
            let text = std::fs::read_to_string(file).map_err(|e| format!("{file}: {e}"))?;
            text::read(&text).map_err(|e| format!("{file}: {e}"))
        }
        _ => Err("which lists: random LISTS CALLS SEED, or file FILE".to_string()),
    }
}

fn nth(n: &str, which: &[&str]) -> Result<List, String> {
    let n = number(n)? as usize;
    made(which)?.into_iter().nth(n).ok_or_else(|| format!("there is no list {n}"))
}

fn write_lists(folder: &str, lists: &[List]) -> Result<(), String> {
    let names = antt::Names::of(&lists.iter().collect::<Vec<_>>());
    let numbered: Vec<(usize, &List)> = lists.iter().enumerate().collect();
    write(folder, &names, numbered.chunks(LISTS_A_FILE).map(|part| antt::lists(&names, part)).collect())
}

/// The files of a crate's specs/ beside the prelude.
fn write(folder: &str, names: &antt::Names, parts: Vec<String>) -> Result<(), String> {
    let put = |name: &str, text: &str| {
        let file = format!("{folder}/{name}.antt");
        std::fs::write(&file, text).map_err(|e| format!("{file}: {e}"))
    };
    let mut lib = "pub mod Prelude\npub mod Names\n".to_string();
    put("Names", &names.file())?;
    for (i, part) in parts.iter().enumerate() {
        put(&format!("Lists{i}"), part)?;
        lib += &format!("pub mod Lists{i}\n");
    }
    put("Lib", &lib)
}
