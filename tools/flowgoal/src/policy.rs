//! The tool's own reading of a policy: each clause of paper 01's "Authorization and flow" with the records that give it. What it says
//! is held to the library's answer wherever it is shown.
use crate::expression;
use crate::names::{Names, Sort};
use crate::text;
use second_search::policy::{Context, Event, Policy, Record, TRANSITION};

/// The role that is the source's object role.
const OBJECT_ROLE: u32 = 1;

/// A policy with the text of its records and its names.
pub struct Reading<'a> {
    pub policy: &'a Policy,
    pub names: &'a Names,
    lines: Vec<String>,
    /// The numbers of the records of each kind.
    kinds: [Vec<usize>; 10],
}

/// What the role rule says of an event.
pub enum RoleRule {
    /// It is asked of process transition alone.
    NotAsked,
    /// The role stays what it is.
    Unchanged,
    /// These records let the role change; where there is none, it may not.
    Changes(Vec<usize>),
}

impl RoleRule {
    pub fn holds(&self) -> bool {
        !matches!(self, RoleRule::Changes(records) if records.is_empty())
    }
}

/// A clause of authorization: whether it holds, by which records, and in words.
pub struct Clause {
    pub name: &'static str,
    pub holds: bool,
    /// Those that give it where it holds, which may be none where a rule does; for a constraint, its own.
    pub records: Vec<usize>,
    pub words: String,
}

/// A way of flow: the one context acts on the other, by a permission that is like it.
pub struct Way {
    /// "write" or "read"
    pub name: &'static str,
    pub acting: Context,
    pub on: Context,
    /// The flow records that say so of the permission.
    pub records: Vec<usize>,
    pub clauses: Vec<Clause>,
}

impl Way {
    pub fn is_authorized(&self) -> bool {
        self.clauses.iter().all(|clause| clause.holds)
    }

    pub fn flows(&self) -> bool {
        !self.records.is_empty() && self.is_authorized()
    }
}

fn has(record: &Record, p: u32) -> bool {
    record.mask >> p & 1 == 1
}

impl<'a> Reading<'a> {
    pub fn new(policy: &'a Policy, names: &'a Names) -> Reading<'a> {
        let mut kinds: [Vec<usize>; 10] = Default::default();
        for (i, record) in policy.records.iter().enumerate() {
            kinds[record.kind as usize].push(i + 1);
        }
        Reading { policy, names, lines: text::record_lines(policy, names), kinds }
    }

    /// A record's line in the text format.
    pub fn line(&self, record: usize) -> &str {
        &self.lines[record - 1]
    }

    /// The numbers of the records of a kind of which something is so.
    fn records(&self, kind: usize, is: impl Fn(&Record) -> bool) -> Vec<usize> {
        self.kinds[kind].iter().copied().filter(|&k| is(&self.policy.records[k - 1])).collect()
    }

    /// Those that name two things.
    fn pairs(&self, kind: usize, a: u32, b: u32) -> Vec<usize> {
        self.records(kind, |record| (record.a as u32, record.b as u32) == (a, b))
    }

    pub fn domain(&self, t: u32) -> Vec<usize> {
        self.records(1, |record| record.a as u32 == t)
    }

    pub fn gamma(&self, e: Event) -> Vec<usize> {
        self.records(2, |record| record.a as u32 == e.c && has(record, e.p))
    }

    /// The allow records that give an event from one type on another; a target of 0 is the source itself.
    pub fn allows(&self, t1: u32, t2: u32, e: Event) -> Vec<usize> {
        let on = |record: &Record| if record.b == 0 { t1 == t2 } else { record.b as u32 == t2 };
        self.records(4, |record| record.a as u32 == t1 && on(record) && record.c as u32 == e.c && has(record, e.p))
    }

    /// ρ(r, t): the records that give it, and whether the rule does that the object role holds what is no domain.
    fn holds_type(&self, r: u32, t: u32) -> (Vec<usize>, bool) {
        (self.pairs(5, r, t), r == OBJECT_ROLE && self.domain(t).is_empty())
    }

    /// μ(u, r): the records that give it, and whether the rule does that every user holds the object role.
    fn holds_role(&self, u: u32, r: u32) -> (Vec<usize>, bool) {
        (self.pairs(6, u, r), r == OBJECT_ROLE)
    }

    /// The contexts that meet ρ and μ.
    pub fn valid(&self) -> Vec<Context> {
        let met = |(records, by_rule): (Vec<usize>, bool)| by_rule || !records.is_empty();
        let users: Vec<Vec<u32>> =
            (0..=self.policy.roles).map(|r| (1..=self.policy.users).filter(|&u| met(self.holds_role(u, r))).collect()).collect();
        let pairs = (1..=self.policy.types).flat_map(|t| (1..=self.policy.roles).map(move |r| (t, r)));
        let held = pairs.filter(|&(t, r)| met(self.holds_type(r, t)));
        held.flat_map(|(t, r)| users[r as usize].iter().map(move |&u| Context { t, r, u })).collect()
    }

    fn rho(&self, name: &'static str, r: u32, t: u32) -> Clause {
        let (records, by_rule) = self.holds_type(r, t);
        let (role, ty) = (self.names.long(Sort::Role, r), self.names.long(Sort::Type, t));
        let words = match (records.is_empty(), by_rule) {
            (false, _) => format!("{role} may hold {ty}"),
            (true, true) => format!("{role} holds every type that is no domain, so {ty}"),
            (true, false) => format!("{role} may not hold {ty}"),
        };
        Clause { name, holds: !records.is_empty() || by_rule, records, words }
    }

    fn mu(&self, name: &'static str, u: u32, r: u32) -> Clause {
        let (records, by_rule) = self.holds_role(u, r);
        let (user, role) = (self.names.long(Sort::User, u), self.names.long(Sort::Role, r));
        let words = match (records.is_empty(), by_rule) {
            (false, _) => format!("{user} may hold {role}"),
            (true, true) => format!("every user holds {role}, so {user}"),
            (true, false) => format!("{user} may not hold {role}"),
        };
        Clause { name, holds: !records.is_empty() || by_rule, records, words }
    }

    /// ρ and μ of a context.
    pub fn held(&self, x: Context) -> [Clause; 2] {
        [self.rho("role", x.r, x.t), self.mu("user", x.u, x.r)]
    }

    pub fn constraints_on(&self, e: Event) -> Vec<usize> {
        self.records(8, |record| record.a as u32 == e.c && has(record, e.p))
    }

    /// Each constraint on an event, and whether it is true of the two contexts.
    fn constraints(&self, x: Context, y: Context, e: Event) -> Vec<Clause> {
        let clause = |k: usize| {
            let root = self.policy.records[k - 1].root();
            let holds = expression::truth(self.policy, root, x, y);
            let words = format!("the constraint is {holds}: {}", expression::words(self.policy, self.names, root));
            Clause { name: "constraint", holds, records: vec![k], words }
        };
        self.constraints_on(e).into_iter().map(clause).collect()
    }

    /// The role rule, where a context of the first role acts on one of the second (D18): process transition asks for a record of kind 7,
    /// unless the role stays what it is (request f of paper 02).
    pub fn role_rule(&self, r1: u32, r2: u32, e: Event) -> RoleRule {
        match e == TRANSITION {
            false => RoleRule::NotAsked,
            true if r1 == r2 => RoleRule::Unchanged,
            true => RoleRule::Changes(self.pairs(7, r1, r2)),
        }
    }

    fn role_clause(&self, x: Context, y: Context, e: Event) -> Option<Clause> {
        let rule = self.role_rule(x.r, y.r, e);
        let (holds, before, after) = (rule.holds(), self.names.long(Sort::Role, x.r), self.names.long(Sort::Role, y.r));
        let (records, words) = match rule {
            RoleRule::NotAsked => return None,
            RoleRule::Unchanged => (vec![], format!("{before} stays what it is, which needs no record")),
            RoleRule::Changes(records) if holds => (records, format!("{before} may change to {after}")),
            RoleRule::Changes(records) => (records, format!("no trans record lets {before} change to {after}")),
        };
        Some(Clause { name: "transition", holds, records, words })
    }

    /// α in its three parts: a domain, Γ, and an allow record.
    fn alpha(&self, t1: u32, t2: u32, e: Event) -> [Clause; 3] {
        let by = self.names.event(e);
        let (source, target) = (self.names.long(Sort::Type, t1), self.names.long(Sort::Type, t2));
        let class = self.names.long(Sort::Class, e.c);
        let permission = self.names.long(Sort::PermissionOf(e.c), e.p);
        let given = |name, records: Vec<usize>, yes: String, no: String| {
            let holds = !records.is_empty();
            Clause { name, holds, records, words: if holds { yes } else { no } }
        };
        [
            given("domain", self.domain(t1), format!("{source} is a domain"), format!("{source} is no domain")),
            given("class", self.gamma(e), format!("{class} has {permission}"), format!("{class} has no {permission}")),
            given(
                "allow",
                self.allows(t1, t2, e),
                format!("{source} is allowed {by} on {target}"),
                format!("no allow record gives {source} the event {by} on {target}"),
            ),
        ]
    }

    /// The clauses of authorization of an event from x on y, all of which must hold.
    pub fn clauses(&self, x: Context, y: Context, e: Event) -> Vec<Clause> {
        let mut clauses = Vec::from(self.alpha(x.t, y.t, e));
        clauses.extend([self.rho("source role", x.r, x.t), self.rho("target role", y.r, y.t)]);
        clauses.extend([self.mu("source user", x.u, x.r), self.mu("target user", y.u, y.r)]);
        clauses.extend(self.constraints(x, y, e));
        clauses.extend(self.role_clause(x, y, e));
        clauses
    }

    /// The two ways in which an event may make flow from x to y: x writes to y, or y reads x.
    pub fn ways(&self, x: Context, y: Context, e: Event) -> [Way; 2] {
        let like = |other: u16| self.records(3, |record| record.a as u32 == e.c && record.b != other && has(record, e.p));
        [
            Way { name: "write", acting: x, on: y, records: like(2), clauses: self.clauses(x, y, e) },
            Way { name: "read", acting: y, on: x, records: like(1), clauses: self.clauses(y, x, e) },
        ]
    }
}
