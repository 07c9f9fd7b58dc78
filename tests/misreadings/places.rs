//! Where the second search's sources are changed for the copy.

/// A place in the sources of the second search, and what stands there in the copy: `on!(Name)` is true while the misreading of
/// that name (`src/names.rs`) is switched on, and with none switched on the copy reads as the original does.
pub struct Place {
    pub file: &'static str,
    pub reads: &'static str,
    pub switched: &'static str,
}

pub const PLACES: [Place; 60] = [
    Place {
        file: "layers.rs",
        reads: "(1..goal.n).any(|i| goal.sigma(i + 1, x) && !self.seen.contains(&i))",
        switched: "(if on!(OrderFromZero) { 0 } else { 1 }..if on!(OrderBelowLast) { goal.n - 1 } else { goal.n })
            .any(|i| goal.sigma(i + 1, x) && !self.seen.contains(&i) && !(on!(SameContextCounts) && goal.sigma(i, x)))",
    },
    Place {
        file: "layers.rs",
        reads: "self.flows.sigma[&x].1 && self.trackers",
        switched: "self.flows.sigma[&x].1 && !(on!(EndExcepted) && self.flows.sigma[&x].2) && self.trackers",
    },
    Place {
        file: "layers.rs",
        reads: "!end && !exception",
        switched: "(!end || on!(GoesOnAfterEnd)) && (!exception || on!(SigmaEIgnored))",
    },
    Place {
        file: "layers.rs",
        reads: "list.retain(|&(e, _)| !goal.gamma_e(e))",
        switched: "list.retain(|&(e, _)| on!(GammaEIgnored) || !goal.gamma_e(e))",
    },
    Place {
        file: "layers.rs",
        reads: "        Progress(after)\n",
        switched: "        while on!(HighestStageKept) && after.len() > 1 { after.pop_first(); }
        while on!(LowestStageKept) && after.len() > 1 { after.pop_last(); }
        Progress(after)\n",
    },
    Place {
        file: "goal.rs",
        reads: "self.flags >> leg & 1 == 1",
        switched: "(on!(EveryLegRepeated) || self.flags >> leg & 1 == 1) && !on!(NoLegRepeated)",
    },
    Place {
        file: "layers.rs",
        reads: "if goal.repeated(i) {",
        switched: "if goal.repeated(i) && !(on!(RepeatedLegLeft) && goal.sigma(i + 1, y)) {",
    },
    Place {
        file: "layers.rs",
        reads: "!self.0.contains(&goal.n)",
        switched: "if on!(FirstLegAlone) { self.0.is_empty() } else { on!(EveryPathBreaks) || !self.0.contains(&goal.n) }",
    },
    Place {
        file: "layers.rs",
        reads: "edges.entry(x2).or_default().insert((e, x1));",
        switched: "if on!(ReadReversed) { edges.entry(x1).or_default().insert((e, x2)); }
                        else { edges.entry(x2).or_default().insert((e, x1)); }",
    },
    Place {
        file: "layers.rs",
        reads: "if !order.closed && order.ends() {",
        switched: "if !order.closed && order.ends() && !(on!(EventsOnTie) && !events.closed && events.ends()) {",
    },
    Place {
        file: "layers.rs",
        reads: "filter(|&x| policy.valid(x))",
        switched: "filter(|&x| on!(StartNotTested) || on!(InvalidBetween) || policy.valid(x))",
    },
    Place {
        file: "policy.rs",
        reads: "e != TRANSITION ||",
        switched: "e != TRANSITION && !on!(EveryEventAsked) || on!(RoleRuleLeftOut) ||",
    },
    Place {
        file: "policy.rs",
        reads: "(self.landed.has('f') && r1 == r2) ||",
        switched: "(self.landed.has('f') && r1 == r2 && !on!(EqualRolesAsked) && !on!(EqualTypesLetPass) && !on!(EqualUsersLetPass)
                && !(on!(RoleOneAloneLetPass) && r1 != 1)) || !on!(DifferentRolesStopped) &&",
    },
    Place {
        file: "layers.rs",
        reads: "if k.b == 0 { k.a as u32 }",
        switched: "if k.b == 0 { if on!(SelfIgnored) { 999 } else { k.a as u32 } }",
    },
    Place {
        file: "layers.rs",
        reads: "if roots.iter().all(|&root| policy.eval(root, x1, x2)) && policy.role_rule(x1.r, x2.r, e) {",
        switched: "let (y1, y2) = if on!(ConstraintSwapped) { (x2, x1) } else { (x1, x2) };
                let (s1, s2) = if on!(RolesSwapped) { (x2.r, x1.r) } else { (x1.r, x2.r) };
                let mut values = roots.iter().map(|&root| policy.eval(root, y1, y2));
                let chi = on!(ConstraintsIgnored)
                    || if on!(AnyConstraintSuffices) { roots.is_empty() || values.any(|v| v) } else { values.all(|v| v) };
                let stays = on!(EqualTypesLetPass) && x1.t == x2.t || on!(EqualUsersLetPass) && x1.u == x2.u;
                if chi && (stays || policy.role_rule(s1, s2, e)) && !(on!(NoFlowToItself) && x1 == x2) {",
    },
    Place {
        file: "policy.rs",
        reads: "self.domain(t1)\n            && self.gamma(e)",
        switched: "(on!(SourceNoDomain) || self.domain(t1))\n            && self.gamma(e)",
    },
    Place {
        file: "policy.rs",
        reads: "    if !policy.nodes_ok() {",
        switched:
            "    if on!(SourcesBeforeNodes) && policy.records.iter().any(|k| k.kind == 4 && !policy.domain(u32::from(k.a))) {
        return Err(14);
    }
    if !policy.nodes_ok() {",
    },
    Place {
        file: "policy.rs",
        reads: "policy.records.iter().any(|k| k.kind == 4 && !policy.domain(k.a as u32)) {",
        switched: "!on!(SourceNoDomain) && policy.records.iter().enumerate().any(|(i, k)| {
        let asked = k.kind == 4 && !(on!(EmptyMaskNotAsked) && k.mask == 0) && !(on!(SelfNotAsked) && k.b == 0);
        let source = if on!(TargetAsked) && k.b != 0 { k.b } else { k.a };
        let counted = if on!(DomainsBefore) { i } else { policy.records.len() };
        asked && !policy.records[..counted].iter().any(|d| d.kind == 1 && d.a == source)
    }) {",
    },
    Place {
        file: "policy.rs",
        reads: "k.kind == 2 && k.a as u32 == e.c && k.masks(e.p))",
        switched: "k.kind == 2 && k.a as u32 == e.c && k.masks(e.p)) || on!(ClassPermissionsIgnored)",
    },
    Place {
        file: "policy.rs",
        reads: "(r == 1 && !self.domain(t))",
        switched: "(r == 1 && (on!(RoleOneHoldsAll) || !self.domain(t)))",
    },
    Place {
        file: "policy.rs",
        reads: "any(|k| k.has(6, u, r)) || r == 1",
        switched: "any(|k| k.has(6, u, r)) || (r == 1 && !on!(RoleOneNeedsRecord))",
    },
    Place {
        file: "policy.rs",
        reads: "k.b != 1 && k.masks",
        switched: "(if on!(BothIsWriteAlone) { k.b == 2 } else { k.b != 1 }) && k.masks",
    },
    Place {
        file: "layers.rs",
        reads: "History::default().visit(goal, x)",
        switched: "let start = History::default().visit(goal, x);
        History { broken: start.broken && !on!(StartNotOrdered), ..start }",
    },
    Place { file: "goal.rs", reads: "(c == 0 || c == e.c)", switched: "((c == 0 && !on!(AnyClassIsNone)) || c == e.c)" },
    Place { file: "policy.rs", reads: "(0..uses.len()).all(|i|", switched: "(0..uses.len()).all(|i| on!(NodeUsedTwice) ||" },
    Place {
        file: "policy.rs",
        reads: "1 => r.b == 0 && r.right() == 0,",
        switched: "1 => r.b == 0 && (on!(RightOfNotFree) || r.right() == 0),",
    },
    Place {
        file: "policy.rs",
        reads: "if r.kind == 8 {\n",
        switched: "if r.kind == 8 && on!(RootBelowConstraint) && r.root() >= own {
                return false;
            }
            if r.kind == 8 {\n",
    },
    Place {
        file: "policy.rs",
        reads: "uses.iter().all(|&k| is_node(k)) &&",
        switched: "!(on!(UnusedNodeRefused) && uses.len() < self.records.iter().filter(|r| r.kind == 9).count())
            && uses.iter().all(|&k| is_node(k)) &&",
    },
    Place {
        file: "policy.rs",
        reads: "(r.b == 0 || is(r.b, ty))",
        switched: "((r.b == 0 && !on!(SelfNoTarget)) || is(r.b, ty))",
    },
    Place {
        file: "goal.rs",
        reads: "if (n + 1..=6).any(|i| head(i) != 0)",
        switched: "if (on!(SigmaEIsSpare) && head(SIGMA_E) != 0) || (n + 1..=6).any(|i| head(i) != 0)",
    },
    Place { file: "goal.rs", reads: "spare != [0, 0, 0]", switched: "(!on!(SpareBytesFree) && spare != [0, 0, 0])" },
    Place { file: "goal.rs", reads: "img[1] >> n != 0", switched: "(!on!(FlagsAboveFree) && img[1] >> n != 0)" },
    Place {
        file: "policy.rs",
        reads: "img.len() != header + unit * n",
        switched: "if on!(LongerPolicyTaken) { img.len() < header + unit * n } else { img.len() != header + unit * n }",
    },
    Place {
        file: "steps.rs",
        reads: "if !(policy.valid(x) && policy.valid(y)) {",
        switched: "if on!(NoneToItself) && x == y {
        return None;
    }
    if !(policy.valid(x) && policy.valid(y) || on!(InvalidReachesItself) && x == y) {",
    },
    Place { file: "steps.rs", reads: "= flow_edges(policy);", switched: "= crate::edges_as_read(flow_edges(policy));" },
    Place {
        file: "steps.rs",
        reads: "match least_path(&policy, x, y) {",
        switched: "let (x, y) = if on!(StepsReversed) { (y, x) } else { (x, y) };
    match least_path(&policy, x, y) {",
    },
    Place {
        file: "steps.rs",
        reads: "policy.users) as usize;",
        switched: "policy.users) as usize * if on!(WorkForLegs) { crate::states_at_hand() } else { 1 };",
    },
    Place {
        file: "join.rs",
        reads: "maker.types.max(board.types)",
        switched: "crate::joins::count_as_read(maker.types, board.types)",
    },
    Place {
        file: "join.rs",
        reads: "maker.roles.max(board.roles)",
        switched: "crate::joins::count_as_read(maker.roles, board.roles)",
    },
    Place {
        file: "join.rs",
        reads: "maker.users.max(board.users)",
        switched: "crate::joins::count_as_read(maker.users, board.users)",
    },
    Place {
        file: "join.rs",
        reads: "maker.classes.max(board.classes)",
        switched: "crate::joins::count_as_read(maker.classes, board.classes)",
    },
    Place {
        file: "join.rs",
        reads: "    let place: HashMap<(usize, usize), usize> =",
        switched: "    let from = crate::joins::records_as_read(both, from);
    let place: HashMap<(usize, usize), usize> =",
    },
    Place {
        file: "join.rs",
        reads: "let new = |old: usize| place[&(who, old)];",
        switched: "let new = |old: usize| match who {
                1 if on!(BoardsNodesRaised) => old + maker.records.len(),
                _ if on!(BoardsNodesRaised) || on!(NodesNotAdjusted) => old,
                _ => place[&(who, old)],
            };
            let child = |old: usize| if on!(RootsAloneAdjusted) { old } else { new(old) };",
    },
    Place {
        file: "join.rs",
        reads: "(8, _) => r.with_root(new(r.root())),",
        switched: "(8, _) => r.with_root(if on!(RootsNotAdjusted) { r.root() } else { new(r.root()) }),",
    },
    Place {
        file: "join.rs",
        reads: "(9, 1) => r.with_children(new(r.left()), 0),",
        switched: "(9, 1) => r.with_children(if on!(ChildOfNotKept) { r.left() } else { child(r.left()) }, 0),",
    },
    Place {
        file: "join.rs",
        reads: "(9, 2 | 3) => r.with_children(new(r.left()), new(r.right())),",
        switched: "(9, 2 | 3) => {
                    r.with_children(child(r.left()), if on!(RightKept) { r.right() } else { child(r.right()) })
                }",
    },
    Place {
        file: "join.rs",
        reads: "    let maker = check_policy_landed(landed, maker)?;
    let board = check_policy_landed(landed, board)?;
    write_out(&joined(&maker, &board), out)",
        switched: "    let [maker, board] = crate::joins::checked_as_read(landed, maker, board)?;
    let joined = joined(&maker, &board);
    if on!(MakersDomainsServe) && check_policy_landed(landed, &joined.encode()) == Err(14) {
        return Err(14);
    }
    write_out(&joined, out)",
    },
    Place {
        file: "join.rs",
        reads: "    if policy.records.len() > policy.most_records() {
        return Err(15);
    }
    let img = policy.encode();
    if out.len() < img.len() {",
        switched: "    let most = policy.most_records();
    let too_many = if on!(JustTheMost) { policy.records.len() >= most } else { policy.records.len() > most };
    if too_many && !on!(NeverTooMany) && !(on!(OutputBeforeRecords) && out.len() < policy.encode().len()) {
        return Err(15);
    }
    let img = crate::joins::linked_as_read(policy.encode());
    if on!(WhatFitsWritten) && out.len() < img.len() {
        let fits = out.len();
        out.copy_from_slice(&img[..fits]);
    }
    if out.len() < img.len() + on!(JustTheLength) as usize {",
    },
    Place {
        file: "join.rs",
        reads: "    Ok(img.len())",
        switched: "    if let (Some(behind), true) = (out.get_mut(img.len()), on!(BytePastCleared)) {
        *behind = 0;
    }
    Ok(img.len())",
    },
    Place {
        file: "canonical.rs",
        reads: "let likes = if (r.kind, r.b) == (3, 3) { vec![1, 2] } else { vec![r.b as u32] };",
        switched: "let b = if on!(SelfIsTheType) && r.kind == 4 && r.b == 0 { r.a } else { r.b } as u32;
        let likes = if (r.kind, r.b) == (3, 3) && !on!(BothNotSplit) { vec![1, 2] } else { vec![b] };",
    },
    Place { file: "canonical.rs", reads: "2..=4 => facts", switched: "2..=4 if r.mask != 0 || !on!(EmptyMasksKept) => facts" },
    Place {
        file: "canonical.rs",
        reads: "    facts\n}",
        switched: "    facts.retain(|&((kind, _, _, c, ..), p)| {
        !(on!(UselessDropped) && kind == 4 && !policy.gamma(crate::policy::Event { c, p: p.unwrap_or(0) }))
    });
    facts\n}",
    },
    Place {
        file: "canonical.rs",
        reads: "    // a node is named by its place",
        switched: "    records = crate::canonicals::facts_as_read(policy, records);
    // a node is named by its place",
    },
    Place {
        file: "canonical.rs",
        reads: "policy.records.iter().filter(move |r| r.kind == kind);",
        switched: "policy.records.iter().enumerate().filter(move |(i, r)| {
        r.kind == kind
            && !(on!(EmptyConstraintsDropped) && kind == 8 && r.mask == 0)
            && !(on!(UnusedLeftOut) && kind == 9 && !crate::joins::uses(policy, i + 1))
    }).map(|(_, r)| r);",
    },
    Place {
        file: "canonical.rs",
        reads: "filter(|r| r.kind == 9).count();",
        switched: "filter(|r| r.kind == 9).count();
    let child = |old: usize| if on!(ChildrenNotRenumbered) { old } else { new(old) };",
    },
    Place {
        file: "canonical.rs",
        reads: "list(8).map(|r| r.with_root(new(r.root())))",
        switched: "list(8).map(|r| if on!(RootsNotRenumbered) { *r } else { r.with_root(new(r.root())) })",
    },
    Place {
        file: "canonical.rs",
        reads: "1 => r.with_children(new(r.left()), 0),",
        switched: "1 => r.with_children(child(r.left()), 0),",
    },
    Place {
        file: "canonical.rs",
        reads: "2 | 3 => r.with_children(new(r.left()), new(r.right())),",
        switched:
            "2 | 3 => r.with_children(child(r.left()), if on!(RightNotRenumbered) { r.right() } else { child(r.right()) }),",
    },
    Place {
        file: "canonical.rs",
        reads: "    Policy { records, ..policy.clone() }",
        switched: "    crate::canonicals::policy_as_read(policy, records)",
    },
    Place {
        file: "canonical.rs",
        reads: "    write_out(&canonical_policy(&check_policy_landed(landed, policy)?), out)",
        switched: "    let policy = check_policy_landed(crate::canonicals::asked_as_read(landed), policy)?;
    crate::canonicals::counted_as_read(&policy)?;
    write_out(&canonical_policy(&policy), out)",
    },
];
