//! The records that an explanation names: kept alone they still give what is explained, and without those of any one clause it is gone. The
//! proved library says so, of the policies that are made for it.
use crate::cases::{event, numbers};
use crate::json::Value;
use crate::tool::{Results, CHANGED_ROLE, EQUAL_ROLES};
use flowgoal_calls::{bare, Answer, Bare};
use second_search::gen::renumber;
use second_search::policy::{Context, Event, Policy, Record, TRANSITION};
use std::collections::BTreeSet;

/// What is explained: that an event is authorized or makes flow.
pub struct Explained<'a> {
    pub name: String,
    pub policy: &'a Policy,
    pub question: Bare,
    pub x: Context,
    pub y: Context,
    pub e: Event,
    /// Each way in which it is so, as its clauses.
    pub ways: Vec<&'a [Value]>,
}

/// The numbers of the records of a clause.
fn named(clause: &Value) -> BTreeSet<usize> {
    clause.field("records").list().iter().filter_map(Value::number).collect()
}

/// The clauses that records give; what a rule gives besides has none, or does not hang on them.
const CLAUSES: [&str; 8] = ["flow", "domain", "class", "allow", "source role", "target role", "source user", "target user"];

impl Explained<'_> {
    /// The policy with those records of its own of which something is so.
    fn kept(&self, keep: impl Fn(usize, &Record) -> bool) -> Vec<u8> {
        let records = self.policy.records.iter().enumerate().map(|(i, record)| (i + 1, *record));
        let records = renumber(records.filter(|(k, record)| keep(*k, record)).collect());
        Policy { records, ..self.policy.clone() }.encode()
    }

    fn asked(&self, image: &[u8]) -> Answer {
        bare(self.question, image, numbers(self.x), numbers(self.y), event(self.e)).expect("an answer")
    }

    /// Does a rule give the clause of some way, whatever records say: the object role holds what is no domain, and every user holds it?
    fn by_rule(&self, clause: &str) -> bool {
        let by_rule = |x: Context| match clause {
            "source role" | "target role" => x.r == 1 && !self.policy.domain(x.t),
            "source user" | "target user" => x.r == 1,
            _ => false,
        };
        by_rule(self.x) || by_rule(self.y)
    }

    pub fn hold(&self, results: &mut Results) {
        let all: BTreeSet<usize> = self.ways.iter().flat_map(|clauses| clauses.iter().flat_map(named)).collect();
        let alone = self.kept(|k, record| all.contains(&k) && record.kind < 8);
        let constrained = self.kept(|k, record| all.contains(&k) || record.kind >= 8);
        for (image, what) in [(alone, "kept alone"), (constrained, "kept with the constraints")] {
            let said = self.asked(&image);
            results.claim(said == Answer::Yes, || format!("{}: the records that are named, {what}: {said}", self.name));
        }
        for clause in CLAUSES.into_iter().chain(["transition"]).filter(|clause| !self.by_rule(clause)) {
            self.without(clause, results);
        }
        for clauses in &self.ways {
            self.by_role_rule(clauses, results);
        }
    }

    /// A transition between different roles has records of kind 7, one between equal roles none, whatever kind 7 says; of another event there
    /// is no such clause.
    fn by_role_rule(&self, clauses: &[Value], results: &mut Results) {
        let equal = self.x.r == self.y.r;
        let of_rule: Vec<&Value> = clauses.iter().filter(|one| one.field("clause").text() == "transition").collect();
        let right = match of_rule[..] {
            [] => self.e != TRANSITION,
            [one] => self.e == TRANSITION && named(one).is_empty() == equal,
            _ => false,
        };
        results.claim(right, || format!("{}: the role rule is told as {of_rule:?}", self.name));
        if self.e == TRANSITION {
            let said_of_it =
                self.policy.records.iter().any(|record| record.kind == 7 && record.a == record.b && record.a as u32 == self.x.r);
            match equal {
                true if !said_of_it => results.meet(EQUAL_ROLES),
                true => (),
                false => results.meet(CHANGED_ROLE),
            }
        }
    }

    /// Without the records of a clause, in each way, it is gone.
    fn without(&self, clause: &str, results: &mut Results) {
        let of_way = |clauses: &&[Value]| {
            clauses.iter().filter(|one| one.field("clause").text() == clause).flat_map(named).collect::<BTreeSet<_>>()
        };
        let of_ways: Vec<BTreeSet<usize>> = self.ways.iter().map(of_way).collect();
        // no clause of the question, or one that a rule gives in some way: of the role rule by_role_rule says whether that is right
        if of_ways.iter().any(BTreeSet::is_empty) {
            let by_records = ["domain", "class", "allow"].contains(&clause) || clause == "flow" && self.question == Bare::Flows;
            results.claim(!by_records, || format!("{}: no records are named for the clause {clause}", self.name));
            return;
        }
        let gone: BTreeSet<usize> = of_ways.into_iter().flatten().collect();
        // an allow record from what is then no domain would be refused
        let domains: BTreeSet<u16> =
            gone.iter().map(|k| &self.policy.records[k - 1]).filter(|record| record.kind == 1).map(|record| record.a).collect();
        let image = self.kept(|k, record| !(gone.contains(&k) || record.kind == 4 && domains.contains(&record.a)));
        let said = self.asked(&image);
        results.claim(said == Answer::No, || format!("{}: without the records of the clause {clause}: {said}", self.name));
    }
}
