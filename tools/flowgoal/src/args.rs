//! The words of a command line: options, files, contexts and events.
use crate::ending::{unasked, Fault, Run};
use crate::names::{Names, Sort};
use second_search::policy::{Context, Event};
use std::collections::VecDeque;

/// What the words of a subcommand are, and its help.
pub struct Usage {
    pub name: &'static str,
    /// Its words after the name, as they are shown.
    pub words: &'static str,
    /// Options that stand alone, and those that a value follows.
    pub flags: &'static [&'static str],
    pub values: &'static [&'static str],
    pub help: &'static str,
}

/// The words of a run, options apart.
pub struct Args {
    usage: &'static Usage,
    flags: Vec<String>,
    values: Vec<(String, String)>,
    words: VecDeque<String>,
}

impl Args {
    pub fn new(usage: &'static Usage, words: &[String]) -> Run<Args> {
        let mut args = Args { usage, flags: vec![], values: vec![], words: VecDeque::new() };
        let mut rest = words.iter();
        while let Some(word) = rest.next() {
            let (name, value) = word.split_once('=').map_or((word.as_str(), None), |(name, value)| (name, Some(value)));
            match word.as_str() {
                "--" => args.words.extend(rest.by_ref().cloned()),
                _ if usage.flags.contains(&word.as_str()) => args.flags.push(word.clone()),
                _ if usage.values.contains(&name) => {
                    let value = value.map(str::to_string).or_else(|| rest.next().cloned());
                    let value = value.filter(|value| !value.is_empty());
                    let value = value.ok_or_else(|| args.wrong(format!("{name} is followed by a file")))?;
                    if args.value(name).is_some() {
                        return Err(args.wrong(format!("{name} is given twice")));
                    }
                    args.values.push((name.to_string(), value));
                }
                _ if word.len() > 1 && word.starts_with('-') => return Err(args.wrong(format!("there is no option {word}"))),
                _ => args.words.push_back(word.clone()),
            }
        }
        Ok(args)
    }

    fn wrong(&self, what: String) -> Fault {
        let Usage { name, words, .. } = self.usage;
        unasked(format!("{name}: {what} (./flowgoal {name} {words}; ./flowgoal {name} --help says more)"))
    }

    pub fn flag(&self, name: &str) -> bool {
        self.flags.iter().any(|flag| flag == name)
    }

    pub fn value(&self, name: &str) -> Option<&str> {
        self.values.iter().find(|(given, _)| given == name).map(|(_, value)| value.as_str())
    }

    pub fn is_empty(&self) -> bool {
        self.words.is_empty()
    }

    /// The next word is this one: it is taken.
    pub fn takes(&mut self, word: &str) -> bool {
        let is = self.words.front().is_some_and(|first| first == word);
        if is {
            self.words.pop_front();
        }
        is
    }

    /// The next word, which is the file of something.
    pub fn file(&mut self, what: &str) -> Run<String> {
        let word = self.words.pop_front().filter(|word| !word.is_empty());
        word.ok_or_else(|| self.wrong(format!("{what} is missing")))
    }

    /// No word is left.
    pub fn end(&self) -> Run<()> {
        match self.words.front() {
            Some(word) => Err(self.wrong(format!("{word:?} is one word too many"))),
            None => Ok(()),
        }
    }

    /// The words that are left are split where there are spaces in them: a context or an event may be given as one word or as several.
    pub fn split(&mut self) {
        let parts = |word: &String| word.replace(['{', '}'], " ").split_whitespace().map(str::to_string).collect::<Vec<_>>();
        self.words = self.words.iter().flat_map(parts).collect();
    }

    fn part(&mut self, what: &str, sort: Sort, names: &Names) -> Run<u32> {
        let word = self.words.pop_front().ok_or_else(|| self.wrong(format!("{what} is missing, or a part of it")))?;
        names.number(sort, &word).map_err(|why| unasked(format!("{what}: {why}")))
    }

    /// A context: USER:ROLE:TYPE, or TYPE ROLE USER as the goal program prints it.
    pub fn context(&mut self, what: &str, names: &Names) -> Run<Context> {
        let Some(word) = self.words.front().filter(|word| word.contains(':')).cloned() else {
            let t = self.part(what, Sort::Type, names)?;
            let r = self.part(what, Sort::Role, names)?;
            return Ok(Context { t, r, u: self.part(what, Sort::User, names)? });
        };
        self.words.pop_front();
        let number = |sort, word| names.number(sort, word).map_err(|why| unasked(format!("{what}: {why}")));
        match word.split(':').collect::<Vec<_>>()[..] {
            [u, r, t] => Ok(Context { t: number(Sort::Type, t)?, r: number(Sort::Role, r)?, u: number(Sort::User, u)? }),
            _ => Err(unasked(format!("{what}: {word:?} is no context: those are written USER:ROLE:TYPE"))),
        }
    }

    /// An event: CLASS PERMISSION, with or without braces about the permission.
    pub fn event(&mut self, names: &Names) -> Run<Event> {
        let c = self.part("CLASS", Sort::Class, names)?;
        Ok(Event { c, p: self.part("PERMISSION", Sort::PermissionOf(c), names)? })
    }
}
