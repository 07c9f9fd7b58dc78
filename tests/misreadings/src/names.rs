//! The misreadings, each with a name for the places where it is switched on and with its words.

macro_rules! misreadings {
    ($($(#[$about:meta])* $list:ident = [$($name:ident: $words:literal,)*];)*) => {
        #[derive(Clone, Copy, PartialEq, Eq, Debug)]
        pub enum Misreading {
            $($($name,)*)*
        }
        $($(#[$about])* pub const $list: &[(Misreading, &str)] = &[$((Misreading::$name, $words),)*];)*
    };
}

misreadings! {
    /// Of what breaks a goal. Those of `../second-search/mutants.py` come first here and among those of flow, 25 in all; the rest
    /// are ours. One more, that a source need be no domain, is of the images since request b; and that equal roles are not asked
    /// is no misreading since request f.
    OF_GOALS = [
        SameContextCounts: "order: same context counts (l <= j)",
        OrderFromZero: "order: i from 0",
        OrderBelowLast: "order: i below n-1",
        EndExcepted: "end tested against sigma e",
        SigmaEIgnored: "sigma e ignored",
        GammaEIgnored: "gamma e ignored",
        GoesOnAfterEnd: "paths go on after sigma n",
        HighestStageKept: "one stage kept, the highest",
        LowestStageKept: "one stage kept, the lowest",
        EveryLegRepeated: "every leg repeated",
        NoLegRepeated: "no leg repeated",
        RepeatedLegLeft: "repeated leg stays only outside sigma i+1",
        FirstLegAlone: "only the first leg followed",
        EventsOnTie: "events on a tie",
        StartNotTested: "start not tested by rho and mu",
        EveryPathBreaks: "(vacuity: every path breaks events)",
        NoFlowToItself: "no flow from a context to itself",
        StartNotOrdered: "order not asked of the start",
        AnyClassIsNone: "any class in a gamma matches none",
    ];
    /// Of what flows, which a goal and least steps both go by.
    OF_FLOW = [
        ReadReversed: "read-like reversed",
        RoleRuleLeftOut: "role rule left out",
        SelfIgnored: "self ignored",
        ConstraintSwapped: "constraint contexts swapped",
        ConstraintsIgnored: "constraints ignored",
        AnyConstraintSuffices: "any constraint suffices",
        ClassPermissionsIgnored: "gamma (class permissions) ignored",
        RoleOneHoldsAll: "role 1 holds every type",
        RoleOneNeedsRecord: "role 1 needs a user record",
        RolesSwapped: "role rule asked with the roles swapped",
        EqualRolesAsked: "role rule asked of equal roles, as until request f",
        EqualTypesLetPass: "role rule not asked of equal types, in place of roles",
        EqualUsersLetPass: "role rule not asked of equal users, in place of roles",
        RoleOneAloneLetPass: "role rule not asked of role 1 alone",
        EveryEventAsked: "role rule asked of every event",
        DifferentRolesStopped: "different roles stopped whatever kind 7 has",
        BothIsWriteAlone: "flow both ways taken as write-like alone",
    ];
    /// Of least steps. Some are those of mutants.py; the goal is that of the case, which least steps has nothing to do with.
    OF_STEPS = [
        InvalidReachesItself: "a context that fails rho or mu reaches itself",
        NoneToItself: "a valid context does not reach itself",
        InvalidBetween: "a path may go through contexts that fail rho or mu",
        StepsReversed: "from the second context to the first",
        FlowEitherWay: "a step may go against the flow",
        ContextsCounted: "contexts are counted in place of steps",
        WorkForLegs: "work for the legs of a goal is asked for",
        ExceptionsHeeded: "the exceptions of a goal are heeded",
        LegsHeeded: "an event that no leg of a goal allows is left out",
        EndHeeded: "no path goes on after the end of a goal",
    ];
    /// Of the questions about images, for damaged images to tell apart. They are ours.
    OF_IMAGES = [
        NodeUsedTwice: "a node may be used twice",
        RightOfNotFree: "right of a not may be anything",
        RootBelowConstraint: "a root must stand below its constraint",
        UnusedNodeRefused: "a node that nothing uses is refused",
        SelfNoTarget: "self is no target",
        SigmaEIsSpare: "sigma e is a spare head",
        SpareBytesFree: "spare bytes of a sigma record may be anything",
        FlagsAboveFree: "flags above the last leg may be set",
        LongerPolicyTaken: "a policy may be longer than its records",
        SourceNoDomain: "source need be no domain",
        SourcesBeforeNodes: "14 is asked before 6",
        EmptyMaskNotAsked: "14 is not asked of an allow with an empty mask",
        SelfNotAsked: "14 is not asked of an allow on self",
        TargetAsked: "14 is asked of the target",
        DomainsBefore: "a domain that stands after the allow does not count",
    ];
    /// Of a join. Those of mutants.py come first; the rest are ours.
    OF_JOINS = [
        BoardCheckedFirst: "the board's checks first",
        SmallerCounts: "the smaller count of each pair",
        MakersCounts: "the maker's counts",
        RootsNotAdjusted: "roots not adjusted",
        RootsAloneAdjusted: "node numbers adjusted in roots alone",
        RightKept: "right of a node not adjusted",
        ChildOfNotKept: "the child of a not is not adjusted",
        BoardsRecordsFirst: "the board's records first within a kind",
        MakersListFirst: "the maker's whole list, then the board's",
        RepeatedOnce: "a record that is repeated is written once",
        UnusedNodesDropped: "nodes that nothing uses are dropped",
        NodesNotAdjusted: "node numbers not adjusted",
        BoardsNodesRaised: "the board's node numbers raised by the maker's records",
        KindsNotInTurn: "kinds not in turn: records as they stand",
        BoardsSourcesNotAsked: "14 of the board not asked",
        MakersDomainsServe: "14 of the board asked with the maker's domains",
        RecordsBeforeBoard: "15 is asked before the board's checks",
    ];
    /// Of what a call writes, or where it refuses to, which a join and a canonical image both go by. Those of mutants.py come first.
    OF_WRITING = [
        OutputBeforeRecords: "16 is asked before 15",
        JustTheMost: "4,095 records give 15",
        NeverTooMany: "15 is never asked",
        JustTheLength: "an output of just the length gives 16",
        WhatFitsWritten: "16 after writing what fits",
        NextsNotSet: "links not set: every next is 0",
        HeadsNotSet: "links not set: every head is 0",
        RefusalClears: "a refusal clears the output",
        BytePastCleared: "the byte past the result is cleared",
        RecordsTold: "records are told of in place of bytes",
    ];
    /// Of the canonical image. Those of mutants.py come first; the rest are ours.
    OF_CANONICAL = [
        EmptyMasksKept: "records with an empty mask are kept",
        BothNotSplit: "flow both ways stays one record",
        SortedByC: "sorted by c first",
        SelfIsTheType: "self is taken for the type itself",
        SelfLast: "self is sorted behind the types",
        MasksNotUnited: "masks of equal keys are not united",
        RepeatedRolesStay: "repeated records of kind 5 stay",
        UselessDropped: "permissions that their class has not are dropped",
        ConstraintsSorted: "constraints are sorted",
        EmptyConstraintsDropped: "constraints with an empty mask are dropped",
        RootsNotRenumbered: "roots keep their numbers",
        ChildrenNotRenumbered: "left and right keep their numbers",
        NodesBeforeConstraints: "nodes stand before constraints",
        ReadRecordsCounted: "15 counts the records before they are united",
        CountsMadeSmall: "the count of types is as small as it can be",
        NotSorted: "records of a kind keep their order",
        SortedDown: "sorted from the largest key down",
        FirstMaskKept: "of masks of equal keys the first is kept",
        CommonBitsKept: "of masks of equal keys what is common is kept",
        SplitNotUnited: "a way of flow that was split off is not united with the others",
        BothPutTogether: "a permission that flows both ways is written as 3",
        RightNotRenumbered: "right keeps its number",
        UnusedLeftOut: "nodes that nothing uses are dropped",
        NodesSorted: "nodes are sorted",
        RepeatedConstraintsOnce: "repeated constraints are written once",
        SourcesNotAsked: "14 is not asked",
    ];
}
