"""What bench/emptied exchanges: for each row of crates/kernel/proofs/CauseRows.antt and NameCauseRows.antt, and each of UseRows.antt that tells an order, the two tests, in the
definition of the calls. A line has the row, the text that is replaced, and what stands there then. A text that ends in ` =`
stands for its whole clause, and what a new text leaves open, where the old one doesn't, is closed at its end."""

CALLS = "kernel/specs/Calls.antt"

OPENED = "looks n Beneath path (last_if f.create) (opened f d.rights d.fcntls path)"
NEW_FILE = "Gives number (new_file f rights fcntls number n (truncated f.trunc n)) (truncates f.trunc (at n).place)"
MADE_FILE = "Gives number (new_file f rights fcntls number (length w.tree) (Make place File)) (does Creates place)"
WRITTEN = "write_node d.description n access (value_of s v % 256)"
SENT_BYTE = "sent_end d.description pair side (record { byte = value_of s v % 256; passed = None })"
SENT = "sent_end d.description pair side (record { byte = value_of s v % 256; passed = Some passed })"
QUEUE = "w.files.queue pair (other_side side)"
IS_OPEN = "is_open w.files pair (other_side side)"
IS_DIR = "unless (is_dir (at n).kind) ENOTDIR errors.Kind"
NO_DIR = "(λ pair side. Fails ENOTDIR errors.Kind)"
MADE_DIRECTORY = """Gives 0 (record same { tree = Make (at_name (at d).place (last_component path)) Dir })
      (does Creates (at_name (at d).place (last_component path)))"""
FIRST = "first_need (Renameat x from y to) no_request"
SECOND = "needs_of (called (Renameat x from y to)) no_request Second false"
BOTH = "held (entry x) (λ d. held (entry y) (λ target."
RENAMED = "existing source (λ k. renamed_to (Renameat x from y to) target k to place)"
FIRST_FAULT = """or_fails (lookup_fault w.tree n from Beneath Keep)
      (or_fails (lookup_fault w.tree m to Beneath Keep)"""
SECOND_FAULT_FIRST = """or_fails (lookup_fault w.tree m to Beneath Keep)
      (or_fails (lookup_fault w.tree n from Beneath Keep)"""
MOVED = """(Gives 0 (moves n (at m).place)
      (record { operation = Removes; place = (at m).place } ∷ record { operation = Removes; place = (at n).place }
      ∷ record { operation = Creates; place = (at m).place } ∷ []))"""
INTO_ITSELF = "unless (not (begins (at n).place (at m).place)) EINVAL Path"
OVER_FILE = "unless (not (is_dir (at n).kind && not (is_dir (at m).kind))) ENOTDIR Path"
OVER_DIRECTORY = "unless (not (not (is_dir (at n).kind) && is_dir (at m).kind)) EISDIR Path"
NOT_EMPTY = "unless (not (has_below w.tree (at m).place)) ENOTEMPTY Path"


def lost_first(rest):
    """A fault of the path before what a test says, which is asked of all else that is found."""
    return f"(λ found. elim found [ Not_found fault ↦ lookup_fails fault | other ↦ {rest} ])"


def right_last(call, through, inner):
    """The right asked behind what the descriptor is of."""
    return f"answer ({call}) =", f"held (entry x) (λ d. {through} granted (first_need ({call}) no_request) d ({inner}"


def path_first(call, looked):
    """The path asked before what the first descriptor is of."""
    return f"answer ({call}) =", f"""through (first_need ({call}) no_request) (entry x) (λ d.
      at_object (w.files.objects d.description) (λ n access. {looked}) {NO_DIR}"""


def received(empty, some="at_number free (λ number. receive_end d.description pair side number (m ∷ messages))"):
    """recvfd with other tests for an empty queue and for one with a message."""
    return "answer (Recvfd x) =", f"""through (first_need (Recvfd x) no_request) (entry x) (λ d.
      at_socket d.description (λ pair side. elim ({QUEUE}) [ [] ↦ {empty} | m ∷ messages ↦ {some} ]"""


def moved(*tests):
    """A rename over another node with its tests in this order."""
    return "renamed_over n m =", "".join(f"{test}\n      (" for test in tests[:-1]) + f"{tests[-1]}\n      {MOVED}"


IN_DIRECTORY = "in_directory d.description (λ n."
PAIRS = [
    ("open_asks_the_mode_first", "answer (Open path f) =",
        "looks 0 Global path (last_if f.create) " + lost_first("outside_mode (opened f all_rights all_commands path other)")),
    ("open_asks_the_kind_before_a_number", "opened_as f rights fcntls n Dir =", """at_number free (λ number.
      unless (not (f.write || f.create)) EISDIR Path
      (unrefused ENFILE (Gives number (new_file f rights fcntls number n Same_tree) [])"""),
    ("open_asks_a_number_before_the_kernel", "opened_as f rights fcntls n File =",
        f"unrefused ENFILE (at_number free (λ number. {NEW_FILE}"),
    ("open_asks_a_number_for_a_directory_before_the_kernel",
        "at_number free (λ number. unrefused ENFILE (Gives number (new_file f rights fcntls number n Same_tree) []))",
        "unrefused ENFILE (at_number free (λ number. Gives number (new_file f rights fcntls number n Same_tree) []"),
    ("open_asks_for_a_link_before_a_number", "opened_as f rights fcntls n Link =", "at_number free (λ number. Fails ELOOP Path"),
    ("open_asks_a_number_before_a_full_tree", "opened_new f rights fcntls place =",
        f"""unless (nat_lt (length w.tree) most_nodes) ENOSPC Full
      (at_number free (λ number. unrefused ENFILE ({MADE_FILE}"""),
    ("open_asks_for_a_full_tree_before_the_kernel", "opened_new f rights fcntls place =", f"""at_number free (λ number.
      unrefused ENFILE (unless (nat_lt (length w.tree) most_nodes) ENOSPC Full ({MADE_FILE}"""),
    ("openat_asks_rights_before_the_kind", "answer (Openat x path f) =", f"""held (entry x) (λ d.
      {IN_DIRECTORY} granted (first_need (Openat x path f) f) d ({OPENED}"""),
    ("openat_asks_the_kind_before_the_path", "answer (Openat x path f) =",
        f"""through (first_need (Openat x path f) f) (entry x) (λ d.
      at_object (w.files.objects d.description)
      (λ n access. looks n Beneath path (last_if f.create) {lost_first(f"{IS_DIR} (opened f d.rights d.fcntls path other)")})
      {NO_DIR}"""),
    ("openat_asks_the_path_before_a_number", "answer (Openat x path f) =",
        f"""through (first_need (Openat x path f) f) (entry x) (λ d.
      {IN_DIRECTORY} at_number free (λ number. {OPENED}"""),
    ("read_asks_the_right_before_the_kind", "answer (Read x) =", f"""held (entry x) (λ d.
      at_object (w.files.objects d.description)
      (λ n access. unless (not (is_dir (at n).kind)) EISDIR errors.Kind
      (granted (first_need (Read x) no_request) d (read_node d.description n access)))
      (λ pair side. granted (first_need (Read x) no_request) d (read_end d.description pair side ({QUEUE})"""),
    ("read_asks_the_kind_before_the_access", """unless (not (is_dir (at n).kind)) EISDIR errors.Kind
      (unless access.readable EBADF errors.Access
""", """unless access.readable EBADF errors.Access
      (unless (not (is_dir (at n).kind)) EISDIR errors.Kind
"""),
    ("read_asks_the_right_before_it_waits", "answer (Read x) =", f"""held (entry x) (λ d.
      at_object (w.files.objects d.description)
      (λ n access. granted (first_need (Read x) no_request) d (read_node d.description n access))
      (λ pair side. elim ({QUEUE}) [
        [] ↦ read_end d.description pair side []
        | m ∷ messages ↦ granted (first_need (Read x) no_request) d (read_end d.description pair side (m ∷ messages))
      ]"""),
    ("read_asks_the_other_end_before_it_would_block", "read_end description pair side [] =",
        f"if (state_of description).nonblock then Fails EAGAIN Refused else (if {IS_OPEN} then Waits else gives 256)"),
    ("read_asks_for_a_message_before_the_other_end", "read_end description pair side (m ∷ messages) =",
        f"if {IS_OPEN} then Gives m.byte (record same {{ queue = Pop pair (other_side side) }}) [] else gives 256"),
    ("write_asks_the_right_before_the_kind", "answer (Write x v) =", f"""held (entry x) (λ d.
      at_object (w.files.objects d.description)
      (λ n access. unless (not (is_dir (at n).kind)) EISDIR errors.Kind
      (granted (first_need (Write x v) no_request) d ({WRITTEN})))
      (λ pair side. granted (first_need (Write x v) no_request) d (unrefused ENOSPC ({SENT_BYTE}"""),
    ("write_asks_the_kind_before_the_access", """unless (not (is_dir (at n).kind)) EISDIR errors.Kind
      (unless access.writable EBADF errors.Access (""", """unless access.writable EBADF errors.Access
      (unless (not (is_dir (at n).kind)) EISDIR errors.Kind ("""),
    ("write_asks_the_access_before_the_room", "write_node description n access byte =",
        """unless (not (is_dir (at n).kind)) EISDIR errors.Kind
      (unless (nat_lt (write_offset (state_of description) (at n).content) most_bytes) EFBIG Full
      (unless access.writable EBADF errors.Access
      (write_at description n (write_offset (state_of description) (at n).content) byte"""),
    ("write_asks_the_room_before_the_kernel", """unless (nat_lt offset most_bytes) EFBIG Full
      (unrefused ENOSPC
""", """unrefused ENOSPC
      (unless (nat_lt offset most_bytes) EFBIG Full
"""),
    ("write_asks_the_right_before_the_kernel", "answer (Write x v) =", f"""held (entry x) (λ d.
      at_object (w.files.objects d.description)
      (λ n access. granted (first_need (Write x v) no_request) d ({WRITTEN}))
      (λ pair side. unrefused ENOSPC (granted (first_need (Write x v) no_request) d ({SENT_BYTE}"""),
    ("write_asks_the_kernel_before_the_other_end", f"(λ pair side. unrefused ENOSPC ({SENT_BYTE})))",
        f"(λ pair side. unless ({IS_OPEN}) EPIPE Refused (unrefused ENOSPC ({SENT_BYTE}))))"),
    ("write_asks_the_other_end_before_the_room", "sent_end description pair side message =",
        f"""if nat_lt (length (w.files.queue pair side)) most_messages
      then unless ({IS_OPEN}) EPIPE Refused (Gives 1 (record same {{ queue = Push pair side message }}) [])
      else blocked (state_of description).nonblock"""),
    ("sendfd_asks_both_before_the_right", "answer (Sendfd x y v) =", f"""held (entry x) (λ d.
      granted (first_need (Sendfd x y v) no_request) d
      (held (entry y) (λ passed. at_socket d.description (λ pair side. {SENT}"""),
    ("sendfd_asks_the_right_before_the_kind", "answer (Sendfd x y v) =", f"""held (entry x) (λ d. held (entry y) (λ passed.
      at_socket d.description (λ pair side. granted (first_need (Sendfd x y v) no_request) d ({SENT}"""),
    ("sendfd_asks_the_right_before_the_other_end", "answer (Sendfd x y v) =", f"""held (entry x) (λ d. held (entry y) (λ passed.
      at_socket d.description (λ pair side. unless ({IS_OPEN}) EPIPE Refused
      (granted (first_need (Sendfd x y v) no_request) d ({SENT}"""),
    ("sendfd_is_not_refused_by_the_kernel", f"(at_socket d.description (λ pair side. {SENT}))",
        f"(at_socket d.description (λ pair side. unrefused ENOSPC ({SENT}"),
    ("recvfd_asks_the_right_before_the_kind", *right_last("Recvfd x", "at_socket d.description (λ pair side.",
        f"at_number free (λ number. receive_end d.description pair side number ({QUEUE}))")),
    ("recvfd_asks_the_kind_before_a_number", "answer (Recvfd x) =", f"""through (first_need (Recvfd x) no_request) (entry x) (λ d.
      at_number free (λ number. at_socket d.description (λ pair side. receive_end d.description pair side number ({QUEUE})"""),
    ("recvfd_asks_a_number_before_it_waits", *received(
        f"if {IS_OPEN} then blocked (state_of d.description).nonblock else at_number free (λ number. Fails EINVAL Refused)")),
    ("recvfd_asks_the_right_before_a_number", *right_last("Recvfd x", "at_number free (λ number.",
        f"at_socket d.description (λ pair side. receive_end d.description pair side number ({QUEUE}))")),
    ("recvfd_asks_a_number_before_the_other_end", *received(
        f"unless ({IS_OPEN}) EINVAL Refused (at_number free (λ number. blocked (state_of d.description).nonblock))")),
    ("recvfd_asks_a_number_before_the_message",
        *received("at_number free (λ number. receive_end d.description pair side number [])",
        """elim m.passed [
        None ↦ Fails EINVAL Refused
        | Some passed ↦ at_number free (λ number. received pair side number (Some passed))
      ]""")),
    ("recvfd_asks_the_other_end_before_it_would_block", "receive_end description pair side number [] =",
        f"if (state_of description).nonblock then Fails EAGAIN Refused else unless ({IS_OPEN}) EINVAL Refused Waits"),
    ("lseek_asks_the_right_before_the_kind", *right_last("Lseek x v", "at_file d.description (λ n access.",
        "seeks d.description (value_of s v)")),
    ("lseek_asks_the_kind_before_the_offset", "answer (Lseek x v) =",
        """through (first_need (Lseek x v) no_request) (entry x) (λ d.
      unless (nat_le (value_of s v) most_bytes) EINVAL Refused
      (at_file d.description (λ n access. seeks d.description (value_of s v)"""),
    ("ftruncate_asks_the_right_before_the_kind",
        *right_last("Ftruncate x v", "at_file d.description (λ n access.", "resizes n access (value_of s v)")),
    ("ftruncate_asks_the_kind_before_the_access", "answer (Ftruncate x v) =",
        """through (first_need (Ftruncate x v) no_request) (entry x) (λ d.
      at_object (w.files.objects d.description)
      (λ n access. unless access.writable EINVAL errors.Access
      (unless (is_file (at n).kind) EINVAL errors.Kind (resizes n access (value_of s v))))
      (λ pair side. Fails EINVAL errors.Kind"""),
    ("ftruncate_asks_the_access_before_the_length", """unless access.writable EINVAL errors.Access
      (unless (nat_le len most_bytes) EFBIG Full
""", """unless (nat_le len most_bytes) EFBIG Full
      (unless access.writable EINVAL errors.Access
"""),
    ("fsync_asks_the_right_before_the_kind", "answer (Fsync x) =", """held (entry x) (λ d.
      at_object (w.files.objects d.description) (λ n access. granted (first_need (Fsync x) no_request) d (gives 0))
      (λ pair side. Fails EINVAL errors.Kind"""),
    ("fcntl_setfl_asks_the_command_before_the_flags", "commanded setfl_command d (sets_flags d.description (value_of s v)))",
        "unless (nat_le (value_of s v) 3) EINVAL Refused (commanded setfl_command d (sets_flags d.description (value_of s v)))"),
    ("fcntl_setfl_asks_the_right_before_the_flags", "answer (Fcntl_setfl x v) =", """held (entry x) (λ d.
      unless (nat_le (value_of s v) 3) EINVAL Refused
      (granted (first_need (Fcntl_setfl x v) no_request) d
      (commanded setfl_command d (sets_flags d.description (value_of s v)"""),
    ("fstatat_asks_the_right_before_the_kind", *right_last("Fstatat x path", IN_DIRECTORY,
        "looks n Beneath path Follow stats_at")),
    ("fstatat_asks_the_kind_before_the_path",
        *path_first("Fstatat x path", "looks n Beneath path Follow " + lost_first(f"{IS_DIR} (stats_at other)"))),
    ("stat_asks_the_mode_first", "answer (Stat path) =",
        "looks 0 Global path Follow (λ found. elim found [ Found_node n ↦ outside_mode (stats n) | other ↦ stats_at other ]"),
    ("mkdir_asks_the_mode_first", "answer (Mkdir path) =",
        "looks 0 Global path Keep " + lost_first("outside_mode (made_directory path other)")),
    ("mkdirat_asks_the_right_before_the_kind",
        *right_last("Mkdirat x path", IN_DIRECTORY, "looks n Beneath path Keep (made_directory path)")),
    ("mkdirat_asks_the_kind_before_the_path",
        *path_first("Mkdirat x path", "looks n Beneath path Keep " + lost_first(f"{IS_DIR} (made_directory path other)"))),
    ("mkdirat_asks_for_an_escape_before_a_full_tree", f"{IN_DIRECTORY} looks n Beneath path Keep (made_directory path)))",
        f"""{IN_DIRECTORY} unless (nat_lt (length w.tree) most_nodes) ENOSPC Full
      (looks n Beneath path Keep (made_directory path)"""),
    ("mkdirat_asks_the_path_before_a_full_tree", "made_directory path (Found_node n) =",
        "unless (nat_lt (length w.tree) most_nodes) ENOSPC Full (Fails EEXIST Path)"),
    ("mkdirat_asks_for_a_full_tree_before_the_kernel", "made_directory path (Found_free d) =", f"""unrefused ENOSPC
      (unless (nat_lt (length w.tree) most_nodes) ENOSPC Full
      ({MADE_DIRECTORY}"""),
    ("mkdirat_asks_the_path_before_the_kernel", "made_directory path (Found_node n) =", "unrefused ENOSPC (Fails EEXIST Path)"),
    ("unlink_asks_the_mode_first", "answer (Unlink path directory) =",
        "looks 0 Global path Keep " + lost_first("outside_mode (unlinks directory other)")),
    ("unlinkat_asks_the_right_before_the_kind",
        *right_last("Unlinkat x path directory", IN_DIRECTORY, "looks n Beneath path Keep (unlinks directory)")),
    ("unlinkat_asks_the_kind_before_the_path",
        *path_first("Unlinkat x path directory",
            "looks n Beneath path Keep " + lost_first(f"{IS_DIR} (unlinks directory other)"))),
    ("unlinkat_asks_the_kind_before_what_is_below", "unlinks_as false n rest =",
        "unless (not (has_below w.tree (at n).place)) ENOTEMPTY Path (unless (not (is_dir (at n).kind)) EPERM Path rest"),
    ("renameat_asks_rights_before_the_kinds", "answer (Renameat x from y to) =", f"""{BOTH} granted ({FIRST}) d
      ({IN_DIRECTORY} granted ({SECOND}) target
      (in_directory target.description (λ m. looks_twice n from m to (λ source place. {RENAMED}"""),
    ("renameat_asks_both_before_the_rights", "answer (Renameat x from y to) =", f"""held (entry x) (λ d. granted ({FIRST}) d
      (held (entry y) (λ target. granted ({SECOND}) target
      ({IN_DIRECTORY} in_directory target.description (λ m. looks_twice n from m to (λ source place. {RENAMED}"""),
    ("renameat_asks_the_first_right_before_the_second_kind", "answer (Renameat x from y to) =",
        f"""{BOTH} granted ({SECOND}) target
      (in_directory target.description (λ m. granted ({FIRST}) d
      ({IN_DIRECTORY} looks_twice n from m to (λ source place. {RENAMED}"""),
    ("renameat_asks_the_first_right_before_its_kind", "answer (Renameat x from y to) =", f"""{BOTH} granted ({SECOND}) target
      ({IN_DIRECTORY} granted ({FIRST}) d
      (in_directory target.description (λ m. looks_twice n from m to (λ source place. {RENAMED}"""),
    ("renameat_asks_the_second_right_before_its_kind", "answer (Renameat x from y to) =", f"""{BOTH} granted ({FIRST}) d
      ({IN_DIRECTORY} in_directory target.description (λ m. granted ({SECOND}) target
      (looks_twice n from m to (λ source place. {RENAMED}"""),
    ("renameat_asks_the_first_kind_before_the_source", "answer (Renameat x from y to) =", f"""{BOTH} granted ({FIRST}) d
      (granted ({SECOND}) target
      (at_object (w.files.objects d.description)
      (λ n access. in_directory target.description (λ m. looks_twice n from m to (λ source place. elim source [
        Not_found fault ↦ lookup_fails fault
        | other ↦ {IS_DIR} (existing other (λ k. renamed_to (Renameat x from y to) target k to place))
      ])))
      {NO_DIR}"""),
    ("renameat_asks_the_second_kind_before_the_source", "answer (Renameat x from y to) =", f"""{BOTH} granted ({FIRST}) d
      (granted ({SECOND}) target
      ({IN_DIRECTORY} at_object (w.files.objects target.description)
      (λ m access. looks_twice n from m to (λ source place. existing source (λ k.
      unless (is_dir (at m).kind) ENOTDIR errors.Kind (renamed_to (Renameat x from y to) target k to place))))
      {NO_DIR}"""),
    ("renameat_asks_the_first_path_before_the_second", FIRST_FAULT, SECOND_FAULT_FIRST),
    ("renameat_asks_the_first_start_before_the_second_path", FIRST_FAULT, SECOND_FAULT_FIRST),
    ("renameat_asks_the_text_of_the_target_before_the_source", FIRST_FAULT, """or_fails (lookup_fault w.tree n from Beneath Keep)
      (or_fails None"""),
    ("renameat_asks_for_the_same_node_before_the_right_to_replace", "renamed_to call target n path (Found_node m) =",
        "granted (needs_of (called call) no_request Second true) target (if n == m then gives 0 else renamed_over n m"),
    ("renameat_asks_the_source_before_the_target",
        "existing source (λ k. renamed_to (Renameat x from y to) target k to place)",
        """(elim source [
        Not_found fault ↦ lookup_fails fault
        | other ↦ elim place [
          Not_found fault ↦ lookup_fails fault
          | there ↦ existing other (λ k. renamed_to (Renameat x from y to) target k to there)
        ]
      ]"""),
    ("renameat_asks_the_right_to_replace_first", "renamed_to call target n path (Found_node m) =", f"""if n == m then gives 0
      else {INTO_ITSELF} (granted (needs_of (called call) no_request Second true) target (renamed_over n m"""),
    ("renameat_asks_into_itself_before_the_kinds", *moved(OVER_FILE, INTO_ITSELF, OVER_DIRECTORY, NOT_EMPTY)),
    ("renameat_asks_into_itself_before_what_is_below", *moved(NOT_EMPTY, INTO_ITSELF, OVER_FILE, OVER_DIRECTORY)),
    ("renameat_asks_the_kinds_before_what_is_below", *moved(INTO_ITSELF, OVER_FILE, NOT_EMPTY, OVER_DIRECTORY)),
    ("dup_asks_the_descriptor_before_a_number", "answer (Dup x) =",
        "at_number free (λ number. held (entry x) (λ d. Gives number (record same { table = Set_entry number d }) []"),
    ("socketpair_asks_numbers_before_the_kernel", "pair_at (Some first) =", """unrefused ENFILE
      (at_number (lowest_from (most_descriptors - 1 - first) (first + 1) (w.files.table p)) (λ second.
      Gives first (record same { table = New_pair first second (Made_at s.program s.point) }) []"""),
    ("socketpair_asks_the_first_number_before_the_kernel", "pair_at None =", "unrefused ENFILE (Fails EMFILE Full"),
    ("use_asks_the_mode_first", "answer (Use x right) =", """through (bit_or (companions_of right) right) (entry x) (λ d.
      unless (not (s.mode && reaches_globally right)) ECAPMODE CapMode
      (at_object (w.files.objects d.description)
      (λ n access. used (not (acts_beneath right) || is_dir (at n).kind) (effects_of_use right (at n).place))
      (λ pair side. used (not (acts_beneath right)) []"""),
    ("use_asks_its_right_before_the_kind", "answer (Use x right) =", """unless (not (s.mode && reaches_globally right)) ECAPMODE CapMode
      (held (entry x) (λ d.
      at_object (w.files.objects d.description)
      (λ n access. unless (not (acts_beneath right) || is_dir (at n).kind) ENOTDIR errors.Kind
      (granted (bit_or (companions_of right) right) d (used true (effects_of_use right (at n).place))))
      (λ pair side. unless (not (acts_beneath right)) ENOTDIR errors.Kind (granted (bit_or (companions_of right) right) d (used true []"""),
    ("use_asks_the_kind_before_the_kernel", "used fits effects =", "unrefused EAGAIN (unless fits ENOTDIR errors.Kind (Gives 0 same effects"),
    ("fork_asks_the_room_before_the_kernel", "answer Fork =", """unrefused EAGAIN
      (unless (nat_lt (length w.processes) most_processes) EAGAIN Full
      (Gives (length w.processes) (record same { table = New_process }) []"""),
]


def left_open(text):
    return text.count("(") - text.count(")")


def closed(old, new):
    """The new text, which leaves no more open than the old one."""
    return new + ")" * (left_open(new) - left_open(old))


EXCHANGES = [(row, CALLS, old, closed(old, new), row) for row, old, new in PAIRS]
