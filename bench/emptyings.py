"""What bench/emptied empties: the clauses of the definitions that the headline stands on, each made to say nothing. A line has a
name, the text that is replaced, what stands there then, and what has to be refused: a theorem or a law that would be false. Where
no name is given, any refusal is one: then the crate's proofs use the clause."""

ALL = "Some (record { description = 0; rights = all_rights; fcntls = all_commands })"
NEW_CALLER = "record { program = 0; point = 0; registers = []; mode = false; alive = true; walk = None; marked = false; kept = None }"
BOTH = "(Unit {0} × Unit {0})"
INSTANCES = "nothing_comes_from_elsewhere"

ORIGINS = "kernel/specs/Origins.antt", [
    ("calls_at, another instruction", "option_map (λ call. record { process = p; state = s; call = call }) (call_in i)",
        "Some (record { process = p; state = s; call = Socketpair })", INSTANCES),
    ("calls_by, an ended process", "calls_by programs p s false = None",
        "calls_by programs p s false = calls_at p s (slice_get (programs s.program) s.point)", INSTANCES),
    ("calls, a process that was not made", "calls programs p None = None",
        f"calls programs p None = Some (record {{ process = p; state = {NEW_CALLER}; call = Socketpair }})", INSTANCES),
    ("front_of, an empty queue", "front_of [] = None", f"front_of [] = {ALL}", "no_own_message"),
    ("arriving_at, a node", "arriving_at w (At_node n access) = None", f"arriving_at w (At_node n access) = {ALL}",
        "no_message_of_a_file"),
    ("arriving_at, an end", "front_of (w.files.queue pair (other_side side))", ALL, "no_wider_receive"),
    ("arriving_at, the other side", "queue pair (other_side side)", "queue pair side", "no_own_message"),
    ("arriving, no descriptor", "arriving w None = None", f"arriving w None = {ALL}", "no_message_of_nothing"),
    ("IsNoWider, no source", "IsNoWider d None = ⊥", "IsNoWider d None = Unit {0}", "no_own_message"),
    ("IsNoWider, rights", "(is_within d.rights source.rights ≡ true)", "Unit {0}", "no_rights"),
    ("IsNoWider, commands", "(is_within d.fcntls source.fcntls ≡ true)", "Unit {0}", "no_commands"),
    ("HasAll, rights", "(d.rights ≡ all_rights)", "(d.rights ≡ d.rights)", "no_other_right"),
    ("HasAll, commands", "(d.fcntls ≡ all_commands)", "(d.fcntls ≡ d.fcntls)", "no_other_command"),
    ("IsMade by open, a free number", "w.files.table p n ≡ None → s.mode ≡ false", "n ≡ n → s.mode ≡ false", "no_taken"),
    ("IsMade by open, outside the mode", "s.mode ≡ false → HasAll d", "n ≡ n → HasAll d", "no_open"),
    ("IsMade by open, all rights", "HasAll d → IsMade w p s n d (Open path flags)", f"{BOTH} → IsMade w p s n d (Open path flags)",
        "no_other_right"),
    ("IsMade by openat, its source", "IsNoWider d (named w p s x) → IsMade w p s n d (Openat x path flags)",
        f"{BOTH} → IsMade w p s n d (Openat x path flags)", "no_wider_openat"),
    ("IsMade by dup, a free number", "w.files.table p n ≡ None → IsNoWider d (named w p s x) → IsMade w p s n d (Dup x)",
        "n ≡ n → IsNoWider d (named w p s x) → IsMade w p s n d (Dup x)", ""),
    ("IsMade by dup, its source", "IsNoWider d (named w p s x) → IsMade w p s n d (Dup x)", f"{BOTH} → IsMade w p s n d (Dup x)", "no_rights"),
    ("IsMade by recvfd, its source", "IsNoWider d (arriving w (named w p s x))", BOTH, "no_wider_receive"),
    ("IsMade by a limit, its place", "n ≡ value_of s x → IsNoWider d (named w p s x) → IsMade w p s n d (Cap_rights_limit x rights)",
        "n ≡ n → IsNoWider d (named w p s x) → IsMade w p s n d (Cap_rights_limit x rights)", "no_elsewhere"),
    ("IsMade by a limit, its source", "IsNoWider d (named w p s x) → IsMade w p s n d (Cap_rights_limit x rights)",
        f"{BOTH} → IsMade w p s n d (Cap_rights_limit x rights)", "no_wider"),
    ("IsMade by a limit of commands, its place", "n ≡ value_of s x → IsNoWider d (named w p s x) → IsMade w p s n d (Cap_fcntls_limit x commands)",
        "n ≡ n → IsNoWider d (named w p s x) → IsMade w p s n d (Cap_fcntls_limit x commands)", "no_moved_commands"),
    ("IsMade by a limit of commands, its source", "IsNoWider d (named w p s x) → IsMade w p s n d (Cap_fcntls_limit x commands)",
        f"{BOTH} → IsMade w p s n d (Cap_fcntls_limit x commands)", "no_wider_commands"),
    ("IsMade by a call that makes none", "IsMade w p s n d Socketpair", "IsMade w p s n d Fork", "made_by_makers"),
    ("ComesFrom.stood", "stood : w.files.table q n ≡ Some d → ComesFrom", "stood : n ≡ n → ComesFrom", "no_other_table"),
    ("ComesFrom.was_made, the caller", "was_made : (c : Caller) → caller ≡ Some c →",
        "was_made : (c : Caller) → caller ≡ caller →", "by_call"),
    ("ComesFrom.was_made, the process", "q ≡ c.process → IsMade", "q ≡ q → IsMade", "no_dup_for_another"),
    ("ComesFrom.was_made, what is made", "IsMade w c.process c.state n d c.call → ComesFrom", "n ≡ n → ComesFrom", "by_call"),
    ("ComesFrom.was_copied, the caller", "was_copied : (c : Caller) → caller ≡ Some c →",
        "was_copied : (c : Caller) → caller ≡ caller →",
        "no_other_copy"),
    ("ComesFrom.was_copied, the call", "c.call ≡ Fork", "c.call ≡ c.call", "no_other_copy"),
    ("ComesFrom.was_copied, the child", "q ≡ length w.processes", "q ≡ q", "no_other_child"),
    ("ComesFrom.was_copied, the parent's", "w.files.table c.process n ≡ Some d → ComesFrom", "n ≡ n → ComesFrom",
        "no_other_table"),
    ("IsEndOf, a node", "IsEndOf (At_node n access) pair side = ⊥", "IsEndOf (At_node n access) pair side = Unit {0}",
        "no_sending_through_a_file"),
    ("IsEndOf, the pair", "(other ≡ pair)", "(pair ≡ pair)", "no_other_pair"),
    ("IsEndOf, the side", "(its ≡ side)", "(side ≡ side)", "no_other_end"),
    ("IsEnd, no descriptor", "IsEnd w None pair side = ⊥", "IsEnd w None pair side = Unit {0}", "no_sending_through_nothing"),
    ("IsEnd, a descriptor", "IsEndOf (w.files.objects d.description) pair side", BOTH, "no_other_end"),
    ("IsSent, the end", "IsEnd w (named w p s x) pair side →", f"{BOTH} →", "no_other_end"),
    ("IsSent, what is sent", "IsNoWider d (named w p s y) → IsSent", f"{BOTH} → IsSent", "no_wider_message"),
    ("IsSent, another call", "{x y v : Operand} → IsEnd w (named w p s x) pair side → IsNoWider d (named w p s y) → IsSent w p s pair side d (Sendfd x y v)",
        "(x y v : Operand) → IsEnd w (named w p s x) pair side → IsNoWider d (named w p s y) → IsSent w p s pair side d (Dup x)", "no_other_sender"),
    ("QueuedFrom.had_waited, the message", "slice_get (w.files.queue pair side) i ≡ Some m", "i ≡ i", "no_unsent_message"),
    ("QueuedFrom.had_waited, what it carries", "m.passed ≡ Some d → QueuedFrom", "i ≡ i → QueuedFrom", "no_other_message"),
    ("QueuedFrom.was_sent, the caller", "was_sent : (c : Caller) → caller ≡ Some c →",
        "was_sent : (c : Caller) → caller ≡ caller →", "by_sending"),
    ("QueuedFrom.was_sent, what is sent", "IsSent w c.process c.state pair side d c.call → QueuedFrom",
        "side ≡ side → QueuedFrom", "by_sending"),
]

GAINS = "kernel/specs/Gains.antt", [
    ("StaysIn.still, a process that vanishes", "(t : ProcessState) × (after ≡ Some t) ×", "(t : ProcessState) × (after ≡ after) ×", "still_in"),
    ("StaysIn.still, the mode", "(after ≡ Some t) × (s.mode ≡ true → t.mode ≡ true)", "(after ≡ Some t) × (s.mode ≡ true → true ≡ true)",
        "still_in"),
    ("StaysIn.new, a process from nowhere", "(s : ProcessState) × (caller ≡ Some s) ×", "(s : ProcessState) × (caller ≡ caller) ×", "made_in"),
    ("StaysIn.new, a child", "(caller ≡ Some s) × (s.mode ≡ true → t.mode ≡ true)", "(caller ≡ Some s) × (s.mode ≡ true → true ≡ true)",
        "made_in"),
    ("GainsNothing.modes", "StaysIn (slice_get w.processes p) (slice_get w.processes q) (slice_get next.processes q)", "q ≡ q",
        INSTANCES),
    ("GainsNothing.entries", "IfHeld (ComesFrom w caller q n) (next.files.table q n)", "n ≡ n", INSTANCES),
    ("GainsNothing.messages", "EachPassed (QueuedFrom w caller pair side) (next.files.queue pair side)", "side ≡ side",
        INSTANCES),
]

HELD = "fd_table/specs/Descriptions.antt", [
    ("IfHeld", "IfHeld Good (Some d) = Good d", "IfHeld Good (Some d) = Unit {0}", INSTANCES),
    ("EachPassed, the front message", "IfHeld Good m.passed × EachPassed Good messages", "Unit {0} × EachPassed Good messages",
        INSTANCES),
    ("EachPassed, the messages behind", "IfHeld Good m.passed × EachPassed Good messages", f"IfHeld Good m.passed × {BOTH}",
        INSTANCES),
]

# Of Allowed and allows the law is AllowedIsTested, whose proof fails in one lemma or another.
SANDBOXED = "task/specs/Sandboxed.antt", [
    ("Allowed.there", "pub there : slice_get grants number ≡ Some grant", "pub there : number ≡ number", ""),
    ("Allowed.beneath", "pub beneath : place ≡ grant.path ++ rest", "pub beneath : place ≡ place", ""),
    ("Allowed.listed", "pub listed : Contains grant.operations operation", "pub listed : operation ≡ operation",
        ""),
    ("IsInMode, which no process is", "IsInMode (Some s) = s.mode ≡ true", "IsInMode (Some s) = ⊥", "unlisted_operation"),
    ("AreAllowed, the first effect", "Allowed grants f.operation f.place × AreAllowed grants effects",
        "Unit {0} × AreAllowed grants effects",
        "unlisted_operation"),
    ("AreAllowed, the effects after it", "Allowed grants f.operation f.place × AreAllowed grants effects",
        f"Allowed grants f.operation f.place × {BOTH}", "second_effect"),
    ("IsOtherCause, capability mode", "IsOtherCause CapMode = ⊥", "IsOtherCause CapMode = Unit {0}", "capability_mode"),
    ("IsOtherCause, a missing right", "IsOtherCause MissingRight = ⊥", "IsOtherCause MissingRight = Unit {0}", "missing_right"),
    ("IsUnrefused", "IsUnrefused (Failed errno cause) = IsOtherCause cause", "IsUnrefused (Failed errno cause) = Unit {0}",
        "missing_right"),
    ("IsSafe.allowed", "AreAllowed grants a.effects", BOTH, "unlisted_operation"),
    ("IsSafe.unrefused", "IsUnrefused a.outcome", "Unit {0}", "missing_right"),
    ("IsSafe.gains", "pub gains : GainsNothing w e.process (caller_of programs w e) next.world", "pub gains : Unit {0}",
        "gained_descriptor"),
    ("Sandboxed, the first step", "IsSafe programs grants w e (step programs w e choice) × Sandboxed", "Unit {0} × Sandboxed",
        "second_step"),
    ("Sandboxed, the steps after it", "× Sandboxed programs grants (step programs w e choice).world events", "× Unit {0}",
        "second_step"),
    ("IsSandboxed, of no events", "Sandboxed (programs_of_plan plan) plan.grants (first_world plan) events",
        "Sandboxed (programs_of_plan plan) plan.grants (first_world plan) []", "second_step"),
]

# What is asked of trusted programs alone, or of the mode alone, and what a process may be made to do.
CONFINED = "task/specs/Confined.antt", [
    ("IsTrusted, which no process is", "IsTrusted (Some s) = s.marked ≡ false", "IsTrusted (Some s) = ⊥", "trusted_end"),
    ("IsContained.allowed", "AreAllowed grants a.effects", BOTH, "right_too_many"),
    ("IsContained.unrefused", "IsUnrefused a.outcome", "Unit {0}", "trusted_end"),
    ("IsContained.gains", "pub gains : GainsNothing w e.process (caller_as programs w e act) next.world",
        "pub gains : Unit {0}", "runs"),
    ("Confined, the first step", "IsContained programs grants w e act (step_as programs w e act choice)\n    × Confined",
        "Unit {0}\n    × Confined", "one_step"),
    ("Confined, the steps after it", "× Confined programs grants (step_as programs w e act choice).world events",
        "× Unit {0}", "three_steps"),
    ("Confined, what no process may do", "    → IsAct programs w e.process act\n", "    → ⊥\n", "one_step"),
    ("IsConfined, of no events", "Confined (programs_of_plan plan) plan.grants (first_world plan) events",
        "Confined (programs_of_plan plan) plan.grants (first_world plan) []", "one_step"),
]
HOSTILE = "kernel/specs/Hostile.antt", [
    ("IsDeedOf, which no deed is", "IsDeedOf programs (Some s) deed = is_hostile s ≡ true → IsDeed programs s.program deed",
        "IsDeedOf programs (Some s) deed = ⊥", ""),
    ("about, a deed", "about w p (Does deed) = handed w p deed", "about w p (Does deed) = w", ""),
]

POLICIES = "task/specs/Policies.antt", [
    ("allows, the place", "= begins g.path place && lists g.operations operation", "= lists g.operations operation", ""),
    ("allows, the operation", "= begins g.path place && lists g.operations operation", "= begins g.path place", ""),
]

# What the headline asks of a run or a task, made impossible: then it would say nothing of any.
PREMISES = "kernel/specs/Answers.antt", [
    ("IsEvent, which none is", "IsEvent e = e.input < 256", "IsEvent e = ⊥", ""),
]
CHOICES = "kernel/specs/World.antt", [
    ("IsFresh, which no choice is", "pub apart : choice.first ≢ choice.second", "pub apart : choice.first ≢ choice.first", ""),
]
LIMITS = "task/specs/Limits.antt", [
    ("is_plan, which no task is", "    is_tree plan.nodes && are_grants", "    false && is_tree plan.nodes && are_grants",
        "is_valid"),
]

# Outcomes and effects that a line doesn't tell.
STEPS = "kernel/specs/Steps.antt", [
    ("answered, a failure", "outcome = Failed errno cause; effects = []", "outcome = No_call; effects = []", "opens_in_the_mode"),
    ("answered, the effects", "outcome = Value value; effects = effects", "outcome = Value value; effects = []",
        "reads_to_the_end"),
    ("stepped_at, the outcome", "acted_as s x.outcome x.effects", "acted_as s No_call x.effects", "opens_in_the_mode"),
    ("stepped_at, the effects", "acted_as s x.outcome x.effects", "acted_as s x.outcome []", "reads_to_the_end"),
    ("next_instruction, a deed", "next_instruction (Some deed) here = Some deed.instruction", "next_instruction (Some deed) here = here",
        "is_another_deed_each_time"),
    ("after_deed, the process", "changed_at (changed_at processes p (left_by deed)) made (left_by deed)",
        "changed_at processes made (left_by deed)", "waits_and_does_another"),
    ("after_deed, its child", "changed_at (changed_at processes p (left_by deed)) made (left_by deed)",
        "changed_at processes p (left_by deed)", "forks_with_what_the_deed_says"),
    ("after_deed, names that are left", "after_deed (Some deed) p made Walks_on processes = processes",
        "after_deed (Some deed) p made Walks_on processes = changed_at processes p (left_by deed)", "goes_on_by_itself"),
    ("handed", "changed_at w.processes p (handed_to deed)", "changed_at w.processes p (λ s. s)", "is_refused_in_the_mode"),
]
EFFECTS = "kernel/specs/Calls.antt", [
    ("outside_mode, the cause", "unless (not s.mode) ECAPMODE CapMode rest", "unless (not s.mode) ECAPMODE Refused rest",
        "opens_in_the_mode"),
    ("truncates", "truncates true place = does Writes place", "truncates true place = []", "writes_and_truncates"),
    ("opened_new", "(Make place File)) (does Creates place)", "(Make place File)) []", "writes_and_truncates"),
    ("read_byte, at the end", "read_byte description place None = Gives 256 same (does Reads place)",
        "read_byte description place None = gives 256",
        "reads_to_the_end"),
    ("read_byte, a byte", "offset = (state_of description).offset + 1 }) }) (does Reads place)",
        "offset = (state_of description).offset + 1 }) }) []", "reads_to_the_end"),
    ("write_at", "      })\n      (does Writes (at n).place)))", "      })\n      []))", "writes_and_truncates"),
    ("resizes", "(resized (at n).content len) }) (does Writes (at n).place)", "(resized (at n).content len) }) []",
        "resizes_a_file"),
    ("stats", "stats n = Gives (kind_number (at n).kind) same (does Look (at n).place)",
        "stats n = gives (kind_number (at n).kind)",
        "looks_makes_and_removes"),
    ("made_directory", "(does Creates (at_name (at d).place (last_component path)))", "[]", "looks_makes_and_removes"),
    ("unlinks", "(Gives 0 (record same { tree = Remove n }) (does Removes (at n).place))",
        "(Gives 0 (record same { tree = Remove n }) [])",
        "looks_makes_and_removes"),
    ("renamed_free, what is removed",
        "(record { operation = Removes; place = (at n).place } ∷ record { operation = Creates; place = place } ∷ [])",
        "(record { operation = Creates; place = place } ∷ [])", "renames_between_directories"),
    ("renamed_free, what is created",
        "(record { operation = Removes; place = (at n).place } ∷ record { operation = Creates; place = place } ∷ [])",
        "(record { operation = Removes; place = (at n).place } ∷ [])", "renames_between_directories"),
    ("renamed_over, what is replaced", "(record { operation = Removes; place = (at m).place } ∷ record", "(record",
        "renames_over_a_file"),
    ("renamed_over, what is removed", "record { operation = Removes; place = (at n).place }\n      ∷ record", "record",
        "renames_over_a_file"),
    ("own_class, a pair of an untrusted program", "own_class s = if s.marked && s.mode then Made_by s.program else",
        "own_class s = if false then Made_by s.program else", "pair_of_a_deed"),
    ("renamed_over, what is created", "∷ record { operation = Creates; place = (at m).place } ∷ []", "∷ []",
        "renames_over_a_file"),
]
USES = "kernel/specs/Calls.antt", [
    ("use, the mode", "unless (not (s.mode && reaches_globally right)) ECAPMODE CapMode", "unless true ECAPMODE CapMode", "use_asks_the_mode_first"),
    ("use, its right", "through (bit_or (companions_of right) right) (entry x)", "through (companions_of right) (entry x)",
        "use_asks_its_right_before_the_kind"),
    ("use, what stands beside its right", "through (bit_or (companions_of right) right) (entry x)", "through right (entry x)",
        "use_asks_what_stands_beside_before_the_kind"),
    ("use, its effect", "effects_of_use right place = effects_by (operation_of_use right) place", "effects_of_use right place = []",
        "use_of_mmap_reads"),
    ("use, the kind of a node", "used (not (acts_beneath right) || is_dir (at n).kind)", "used true", "use_asks_the_kind_before_the_kernel"),
    ("use, the kind of an end", "used (not (acts_beneath right)) []", "used true []", "use_asks_for_no_end_before_the_kernel"),
    ("use, the kernel", "unless fits ENOTDIR errors.Kind (unrefused EAGAIN (Gives 0 same effects))",
        "unless fits ENOTDIR errors.Kind (Gives 0 same effects)", "use_may_be_refused"),
]

FURTHER = "rights/specs/Uses.antt", [
    ("companions, of MMAP_R", "(further_right 24, read_right + seek_right)", "(further_right 24, read_right)", "each_further_right"),
    ("companions, of FCHMODAT", "(further_right 8, lookup_right) ∷ ", "", "each_further_right"),
    ("global_rights, CONNECT", "further_right 1 + further_right 2 + further_right 5", "further_right 1 + further_right 5", "each_further_right"),
    ("operation_of_use", "operation_of_use right = beside_in operations_of_rights right", "operation_of_use right = None", "each_further_right"),
]

LANGUAGES = "instruction_set/specs/Languages.antt", [
    ("speaks, a use", "speaks wide (Use descriptor right) = wide", "speaks wide (Use descriptor right) = true", ""),
    ("speaks, a limit", "= wide || is_within rights plain_rights", "= true", "limit_to_a_further_right_is_of_the_wide_language"),
]

CAUSES = "kernel/specs/Answers.antt", [
    ("granted, the cause", "granted need d rest = unless (is_within need d.rights) ENOTCAPABLE MissingRight rest",
        "granted need d rest = unless (is_within need d.rights) ENOTCAPABLE Refused rest", "limits_and_misses_a_right"),
    ("commanded, the cause", "commanded command d rest = unless (is_within command d.fcntls) ENOTCAPABLE MissingRight rest",
        "commanded command d rest = unless (is_within command d.fcntls) ENOTCAPABLE Refused rest", "shares_status_flags"),
]

# Well-formed worlds are what the laws of runs speak of, and what each step of the checker's proof keeps. Of those between two steps an
# instance says what isn't one.
WELL_FORMED = "kernel/specs/WellFormed.antt", [
    ("IsCode", "IsCode (i ∷ code) = is_program (i ∷ code) ≡ true", "IsCode (i ∷ code) = true ≡ true", ""),
    ("ArePrograms", "(n : ℕ) → IsCode (programs n)", "(n : ℕ) → n ≡ n", ""),
    ("IsObject, a node", "= is_link (node tree n).kind ≡ false", "= n ≡ n", ""),
    ("IsObject, the pair", "(pair < numbering.pairs) ×", "Unit {0} ×", ""),
    ("IsObject, the side", "(side < 2) × (numbering", "Unit {0} × (numbering", ""),
    ("IsObject, the holder", "(numbering.holder pair side ≡ description)", "Unit {0}", ""),
    ("IsObject, the class", "(numbering.class pair ≡ class)", "Unit {0}", ""),
    ("IsDescriptor.number", "pub number : d.description < numbering.descriptions", "pub number : Unit {0}", ""),
    ("IsDescriptor.rights", "pub rights : is_within d.rights all_rights ≡ true", "pub rights : Unit {0}", ""),
    ("IsDescriptor.fcntls", "pub fcntls : is_within d.fcntls all_commands ≡ true", "pub fcntls : Unit {0}", ""),
    ("IsDescriptor.object", "pub object : IsObject tree numbering d.description (objects d.description)", "pub object : Unit {0}",
        ""),
    ("IsDescriptor.offset", "pub offset : (states d.description).offset ≤ most_bytes", "pub offset : Unit {0}", ""),
    ("EachMessage, the byte", "(m.byte < 256) ×", "Unit {0} ×", ""),
    ("EachMessage, what it carries", "IfHeld Good m.passed × EachMessage", "Unit {0} × EachMessage", ""),
    ("EachMessage, the messages behind", "× EachMessage Good messages", "× Unit {0}", ""),
    ("IsPoint", "IsPoint None = ⊥", "IsPoint None = Unit {0}", ""),
    ("FitsRegister", "FitsRegister (Some value) = value < 2 ^ 32", "FitsRegister (Some value) = Unit {0}", ""),
    ("HasPaths", "HasPaths (Some call) = are_paths (lookups_of call) ≡ true", "HasPaths (Some call) = true ≡ true", ""),
    ("IsDeed.placed", "pub placed : IsPoint (slice_get (programs program) deed.point)", "pub placed : Unit {0}", ""),
    ("IsDeed.eight", "pub eight : length deed.registers ≡ register_count", "pub eight : Unit {0}", ""),
    ("IsDeed.small", "FitsRegister (slice_get deed.registers r)", "Unit {0}", ""),
    ("IsKeptDeed.marked", "pub marked : s.marked ≡ true", "pub marked : Unit {0}", ""),
    ("IsKeptDeed.mode", "pub mode : s.mode ≡ true", "pub mode : Unit {0}", ""),
    ("IsKeptDeed.is", "pub is : IsDeed programs s.program deed", "pub is : Unit {0}", ""),
    ("IsProcess.placed", "IsPoint (slice_get (programs s.program) s.point)", "Unit {0}", ""),
    ("IsProcess.eight", "pub eight : length s.registers ≡ register_count", "pub eight : Unit {0}", ""),
    ("IsProcess.small", "FitsRegister (slice_get s.registers r)", "Unit {0}", ""),
    ("IsProcessIfMade", "IsProcessIfMade programs (Some s) = IsProcess programs s", "IsProcessIfMade programs (Some s) = Unit {0}", ""),
    ("HasNone, a process that was not made", "HasNone None row = (n : ℕ) → row n ≡ None",
        "HasNone None row = (n : ℕ) → row n ≡ row n", ""),
    ("HasNone, an ended process", "HasNone (Some s) row = s.alive ≡ false → (n : ℕ) → row n ≡ None",
        "HasNone (Some s) row = s.alive ≡ false → (n : ℕ) → row n ≡ row n", ""),
    ("IsWorld.tree", "pub tree : IsTree w.tree", "pub tree : Unit {0}", ""),
    ("IsWorld.some", "pub some : 0 < length w.processes", "pub some : Unit {0}", ""),
    ("IsWorld.few", "pub few : length w.processes ≤ most_processes", "pub few : Unit {0}", ""),
    ("IsWorld.processes", "IsProcessIfMade programs (slice_get w.processes p)", "p ≡ p", ""),
    ("IsWorld.entries", "IfHeld (IsDescriptor w.tree numbering w.files.objects w.files.states) (w.files.table p n)", "n ≡ n", ""),
    ("IsWorld.numbers", "most_descriptors ≤ n → w.files.table p n ≡ None", "most_descriptors ≤ n → n ≡ n", ""),
    ("IsWorld.gone", "HasNone (slice_get w.processes p) (w.files.table p)", "p ≡ p", ""),
    ("IsWorld.messages", "EachMessage (IsDescriptor w.tree numbering w.files.objects w.files.states) (w.files.queue pair side)",
        "side ≡ side", ""),
    ("IsWorld.short", "length (w.files.queue pair side) ≤ most_messages", "side ≡ side", ""),
    ("IsWorld.idle", "w.files.pairs ≤ pair → w.files.queue pair side ≡ []", "w.files.pairs ≤ pair → side ≡ side", ""),
    ("IsWorld.sides", "2 ≤ side → w.files.queue pair side ≡ []", "2 ≤ side → side ≡ side", ""),
    ("IsBegun", "s.walk ≡ None → s.kept ≡ None", "s.walk ≡ None → s.kept ≡ s.kept", "about_to_do_is_not_between"),
    ("IsBetweenSteps.begun", "pub begun : (p : ℕ) → IsBegun (slice_get w.processes p)", "pub begun : (p : ℕ) → p ≡ p",
        "about_to_do_is_not_between"),
]

LATER_EVENTS = "kernel/specs/LaterEvents.antt", [
    ("AreAtLast, the old path", "= (is_at_last one ≡ true) ×", "= (one ≡ one) ×", "old_path_is_left"),
    ("AreAtLast, the new path", "× (is_at_last other ≡ true)", "× (other ≡ other)", "new_path_is_left"),
    ("LacksRemoval, that it lacks it", "(is_within (needs_of (called (Renameat x from y to)) no_request Second true) d.rights ≡ false)", "(d ≡ d)",
        "removal_is_there"),
    ("AskAgain, the event", "AsksAgain programs w e\n    ×", "(e ≡ e)\n    ×", "closed_after_a_deed"),
    ("AskAgain, the events behind", "→ AskAgain programs (step_as programs w e act choice).world events)",
        "→ (e ≡ e) × Unit {0})", "closed_after_a_deed"),
]

WITHIN = "rules/specs/Within.antt", [
    ("IsBelowCeiling.holds", "pub holds : grant_holds grants name place ≡ true", "pub holds : true ≡ true", "within_refuses"),
    ("IsBelowCeiling.below", "pub below : is_within rights (most_in wide a name) ≡ true", "pub below : true ≡ true", "within_refuses"),
    ("MayHave, a listed end", "= lists_end a.holds class side ≡ true", "= true ≡ true", "within_refuses"),
    ("MayHave, an own end", "= program ≡ own", "= program ≡ program", "within_refuses"),
    ("IsTableWithin", "IfHeld (IsWithinAuthority plan certificate w program) (w.files.table p n)", "n ≡ n", "carried_in"),
    ("HoldsWithin", "→ IsTableWithin plan certificate w p s.program", "→ Unit {0}", "carried_in"),
    ("StayWithin, the events behind", "→ StayWithin plan certificate (step_as (programs_of_plan plan) w e act choice).world events)", "→ Unit {0})",
        "carried_in"),
    ("StayWithin, the last world", "StayWithin plan certificate w [] = HoldsWithin plan certificate w", "StayWithin plan certificate w [] = Unit {0}",
        "carried_in"),
]

FILES = [ORIGINS, GAINS, HELD, SANDBOXED, CONFINED, HOSTILE, POLICIES, PREMISES, CHOICES, LIMITS, STEPS, EFFECTS, USES, FURTHER, LANGUAGES, CAUSES, WELL_FORMED, LATER_EVENTS, WITHIN]
EMPTYINGS = [(name, file, old, new, by) for file, changes in FILES for name, old, new, by in changes]
