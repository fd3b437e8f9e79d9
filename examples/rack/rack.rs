//! Loads a rack by a rule book (README.md): bans become clauses, wishes become assumptions, and the engine's answer becomes a sentence.
//! usage: rack [BOOK]; without a name the book is read from standard input
#[path = "../../bindings/rust/engine.rs"]
mod engine;

use std::{env, fs, process};

// what the engine takes at most; clauses that it learns count too
const VARS: usize = 4_096;
const CLAUSES: usize = 65_535;
const LITERALS: u32 = 1_048_576;
const BUDGET: u32 = 1_000_000;

const TOO_LARGE: &str = "the book is too large: 40 materials on 40 valves nearly fill the engine";
const WISHES: &str = "a wish reads 'A on valve 1', 'A not on valve 1', 'A beside B' or 'A not beside B'";

#[derive(Default)]
struct Book {
    materials: Vec<String>,
    valves: Vec<String>,        // from one end of the rack to the other
    wishes: Vec<(String, u32)>, // the words, and the literal that is assumed
    head: Vec<usize>,           // the valves of 'this head'
    selectors: usize,           // variables that stand for wishes with 'beside', and helpers of rules that count
    records: Vec<u32>,          // the clauses, as cells of a script
    clauses: usize,
}

fn no(literal: u32) -> u32 {
    literal ^ 1
}

/// The names of a list, each once.
fn names(list: &str) -> Result<Vec<String>, String> {
    let mut all: Vec<String> = Vec::new();
    for name in list.split(',').map(str::trim) {
        if name.is_empty() {
            return Err("a name is missing after the colon or beside a comma".into());
        }
        if name.split(' ').any(|word| ["on", "not", "beside"].contains(&word)) {
            return Err(format!("'{name}' cannot be a name: 'on', 'not' and 'beside' are words of wishes"));
        }
        if all.iter().any(|other| other == name) {
            return Err(format!("'{name}' stands here twice"));
        }
        all.push(name.into());
    }
    Ok(all)
}

fn find(all: &[String], what: &str, name: &str) -> Result<usize, String> {
    all.iter().position(|other| other == name).ok_or_else(|| format!("there is no {what} '{name}'"))
}

impl Book {
    fn read(text: &str) -> Result<Book, String> {
        let mut book = Book::default();
        for (i, line) in text.trim_start_matches('\u{feff}').lines().enumerate() {
            let line = line.split_whitespace().collect::<Vec<_>>().join(" ");
            if !line.is_empty() && !line.starts_with('#') {
                book.rule(&line).map_err(|wrong| format!("line {}: {wrong}", i + 1))?;
            }
        }
        if book.vars() == 0 {
            return Err(format!("line {}: the book ends, and has not named its materials and valves", text.lines().count() + 1));
        }
        book.seats();
        Ok(book)
    }

    fn rule(&mut self, line: &str) -> Result<(), String> {
        let (key, value) = line.split_once(':').ok_or("a rule has a colon, as in 'wish: musk on valve 1'")?;
        match (key.trim(), value.trim()) {
            ("materials", list) if self.materials.is_empty() => self.materials = names(list)?,
            ("valves", list) if self.valves.is_empty() => self.valves = names(list)?,
            ("materials" | "valves", _) => return Err(format!("'{key}:' was given before")),
            _ if self.vars() == 0 => return Err(format!("a book begins with 'materials:' and 'valves:', not with '{key}:'")),
            ("wish", text) => self.wish(text)?,
            ("never next to each other", list) => self.never_next(&names(list)?)?,
            ("head", list) => self.head = names(list)?.iter().map(|name| find(&self.valves, "valve", name)).collect::<Result<_, _>>()?,
            (key, list) if key.starts_with("at most ") => self.at_most(key, &names(list)?)?,
            (key, list) => {
                let valve = key.strip_prefix("never on valve ").ok_or_else(|| format!("no rule begins with '{key}:'"))?;
                let valve = find(&self.valves, "valve", valve)?;
                for name in names(list)? {
                    let material = self.material(&name)?;
                    self.clause(&[no(self.on(material, valve))]);
                }
            }
        }
        (self.vars() <= VARS).then_some(()).ok_or(TOO_LARGE.into())
    }

    fn material(&self, name: &str) -> Result<usize, String> {
        find(&self.materials, "material", name)
    }

    fn vars(&self) -> usize {
        self.materials.len() * self.valves.len() + self.selectors
    }

    /// The literal: this material is on this valve.
    fn on(&self, material: usize, valve: usize) -> u32 {
        2 * (material * self.valves.len() + valve) as u32
    }

    fn clause(&mut self, literals: &[u32]) {
        self.records.extend([1, literals.len() as u32]);
        self.records.extend(literals);
        self.clauses += 1;
    }

    fn never_next(&mut self, names: &[String]) -> Result<(), String> {
        let all = names.iter().map(|name| self.material(name)).collect::<Result<Vec<_>, _>>()?;
        if all.len() < 2 {
            return Err("two materials or more are needed here".into());
        }
        for (i, &a) in all.iter().enumerate() {
            all[..i].iter().for_each(|&b| self.apart(a, b, &[]));
        }
        Ok(())
    }

    /// At most so many of the materials are on this head. A material is on one valve, so it is its places on the head that are counted.
    fn at_most(&mut self, key: &str, names: &[String]) -> Result<(), String> {
        let number = key.strip_prefix("at most ").and_then(|rest| rest.strip_suffix(" on this head"));
        let k: u32 = number.and_then(|word| word.parse().ok()).ok_or("a rule that counts reads 'at most 3 on this head: A, B, C, D'")?;
        if self.head.is_empty() {
            return Err("'this head' wants a line 'head: 1, 2, 3' before it, with the head's valves".into());
        }
        let all = names.iter().map(|name| self.material(name)).collect::<Result<Vec<_>, _>>()?;
        let places: Vec<u32> = all.iter().flat_map(|&m| self.head.iter().map(move |&v| (m, v))).map(|(m, v)| self.on(m, v)).collect();
        let (first, n) = (self.vars(), places.len());
        let helpers = if (k as usize) < n { (n - 1) * k as usize } else { 0 };
        if n > 64 {
            return Err(format!("{} materials on {} valves are {n} places, and 64 can be counted", all.len(), self.head.len()));
        }
        if first + helpers > VARS {
            return Err(TOO_LARGE.into());
        }
        let mut cells = vec![0; engine::at_most_len(n as u32, k) as usize];
        engine::at_most((first + helpers) as u32, &places, k, first as u32, &mut cells).expect("places of their own, and new helpers");
        let mut at = 0;
        while at < cells.len() {
            at += 2 + cells[at + 1] as usize;
            self.clauses += 1;
        }
        self.records.extend(cells);
        self.selectors += helpers;
        Ok(())
    }

    /// Two materials are not neighbours, unless a literal of `or` holds.
    fn apart(&mut self, a: usize, b: usize, or: &[u32]) {
        for valve in 1..self.valves.len() {
            for (left, right) in [(a, b), (b, a)] {
                self.clause(&[&[no(self.on(left, valve - 1)), no(self.on(right, valve))], or].concat());
            }
        }
    }

    /// Wherever a is, b is on a valve next to it, unless a literal of `or` holds.
    fn beside(&mut self, a: usize, b: usize, or: &[u32]) {
        for valve in 0..self.valves.len() {
            let next = (0..self.valves.len()).filter(|v| v.abs_diff(valve) == 1).map(|v| self.on(b, v));
            let literals: Vec<u32> = next.chain([no(self.on(a, valve))]).chain(or.iter().copied()).collect();
            self.clause(&literals);
        }
    }

    /// A wish about a valve is a literal as it stands; one with 'beside' gets a variable, which makes the wish hold when it is true.
    fn wish(&mut self, text: &str) -> Result<(), String> {
        if self.wishes.iter().any(|(said, _)| said == text) {
            return Ok(());
        }
        let (who, wanted) = text.split_once(" on valve ").or_else(|| text.split_once(" beside ")).ok_or(WISHES)?;
        let (who, denied) = who.strip_suffix(" not").map_or((who, false), |who| (who, true));
        let a = self.material(who)?;
        let literal = if text.contains(" on valve ") {
            self.on(a, find(&self.valves, "valve", wanted)?) ^ u32::from(denied)
        } else {
            let b = self.material(wanted)?;
            if a == b {
                return Err(format!("'{who}' is one material, and has no place beside itself"));
            }
            let selector = 2 * self.vars() as u32;
            self.selectors += 1;
            let place = if denied { Book::apart } else { Book::beside };
            place(self, a, b, &[no(selector)]);
            selector
        };
        self.wishes.push((text.into(), literal));
        Ok(())
    }

    /// Every material is on exactly one valve, and a valve has at most one material.
    fn seats(&mut self) {
        for m in 0..self.materials.len() {
            let somewhere: Vec<u32> = (0..self.valves.len()).map(|v| self.on(m, v)).collect();
            self.clause(&somewhere);
            for v in 0..self.valves.len() {
                (0..v).for_each(|u| self.clause(&[no(self.on(m, u)), no(self.on(m, v))]));
                (0..m).for_each(|n| self.clause(&[no(self.on(n, v)), no(self.on(m, v))]));
            }
        }
    }

    /// What a search need not find out: the engine cannot count, and would try the seatings one by one.
    fn too_many(&self) -> Option<String> {
        let (materials, valves) = (self.materials.len(), self.valves.len());
        (materials > valves).then(|| format!("no loading: {materials} materials are to be loaded, and the rack has {valves} valves"))
    }

    /// Asks twice, first without the wishes: so it is known whether the bans alone leave no loading.
    fn ask(&self) -> Result<String, String> {
        if let Some(sentence) = self.too_many() {
            return Ok(sentence);
        }
        if self.clauses > CLAUSES {
            return Err(TOO_LARGE.into());
        }
        let mut script = vec![self.vars() as u32, CLAUSES as u32, LITERALS, 2, 2, 100];
        script.extend(&self.records);
        script.extend([2, 0, BUDGET, 2, self.wishes.len() as u32]);
        script.extend(self.wishes.iter().map(|(_, literal)| literal));
        script.push(BUDGET);

        let mut work = vec![0; engine::work_len(script[0], script[1], script[2]) as usize];
        let mut activities = vec![0.0; self.vars()];
        let mut out = vec![0; engine::out_len(&script) as usize];
        let written = engine::run(&script, &mut work, &mut activities, &mut out).expect("an accepted script") as usize;
        let (taken, answers) = out[..written].split_at(self.clauses);
        assert!(!taken.contains(&engine::UNTAKEN), "a clause was not taken");
        let (bare, wished) = answers.split_at(3 + answers[2] as usize);
        match wished[0] {
            engine::TRUE => Ok(self.loading(&wished[3..])),
            engine::FALSE if bare[0] == engine::FALSE || wished[2] == 0 => Ok("no loading: whatever is wished for, the bans leave none".into()),
            engine::FALSE => Ok(self.clash(&wished[3..])),
            _ => Err("no answer: the search was given up; there may be a loading or none".into()),
        }
    }

    fn loading(&self, model: &[u32]) -> String {
        let places = (0..self.materials.len()).flat_map(|m| (0..self.valves.len()).map(move |v| (m, v)));
        let loaded = places.filter(|&(m, v)| model[self.on(m, v) as usize / 2] == 0);
        let words: Vec<String> = loaded.map(|(m, v)| format!("{} on valve {}", self.materials[m], self.valves[v])).collect();
        format!("loading: {}", words.join(", "))
    }

    /// The wishes whose negations make up the final clause.
    fn clash(&self, last: &[u32]) -> String {
        let wishes = self.wishes.iter().filter(|(_, literal)| last.contains(&no(*literal)));
        match wishes.map(|(text, _)| format!("'{text}'")).collect::<Vec<_>>().as_slice() {
            [some @ .., one] if !some.is_empty() => format!("no loading: the wishes {} and {one} cannot hold together", some.join(", ")),
            all => format!("no loading: the wish {} cannot hold", all.concat()),
        }
    }
}

fn main() {
    let path = env::args().nth(1).unwrap_or_else(|| "/dev/stdin".into());
    let text = fs::read_to_string(&path).map_err(|wrong| format!("the book '{path}' cannot be read: {wrong}"));
    match text.and_then(|text| Book::read(&text)?.ask()) {
        Ok(sentence) => println!("{sentence}"),
        Err(wrong) => {
            eprintln!("{wrong}");
            process::exit(1);
        }
    }
}
