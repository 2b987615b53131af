"""Written by tools/abi from the headers of the library, of journals and of the walk."""
import ctypes as C

VERSION = 65537
REQUEST_REPORTS = 272
DRAIN_REPORTS = 1600
NO_STEP = 65536
NO_PROCEDURE = 65536
LONGEST_ENTRY = 65549
DONE = 0
NOT_OPEN = 1
ALREADY_OPEN = 2
BAD_PROFILE = 3
BAD_APID = 4
BAD_POOL_WORDS = 5
BAD_CAPACITY = 6
MEMORY = 7
BUFFER_TOO_SMALL = 8
JOURNAL_FULL = 9
DISCARDED_SHORT = 10
DISCARDED_VERSION = 11
DISCARDED_LENGTH = 12
DISCARDED_NOT_TELECOMMAND = 13
DISCARDED_OTHER_APID = 14
NOTHING_DUE = 15
NOT_LOADED = 16
NOT_RUNNING = 17
NONE_RUNNING = 18
NO_BUDGET = 19
NOT_AN_INSTRUCTION = 20
ALREADY_SET = 21
BREAKS_FULL = 22
NOT_SET = 23
OUTSIDE_MEMORY = 24
NO_WORD = 25
NO_ENTRY = 26
BAD_OCTETS = 27
NOT_HELD = 28
SPENT = 29
RELEASED = 30
NO_RECORD = 31
BROKE = 0
RAN = 1
CALLED = 2
ENDED = 3
FAULTED = 4
INACTIVE = 0
RUNNING = 1
HELD = 2
NO_CAUSE = 0
EXITED = 1
STOPPED = 2
ABORTED = 3
FAULT = 4
NOTHING_PENDING = 0
STOP_PENDING = 1
SUSPEND_PENDING = 2
ENTRY_REQUEST = 1
ENTRY_STEPS = 2
ENTRY_SET_BREAK = 3
ENTRY_CLEAR_BREAK = 4
ENTRY_TRACE = 5
ENTRY_DRAIN = 6
ENTRY_PUT_WORD = 7
JOURNAL_HEAD = 44
JOURNAL_CHECK = 4
LISTED_PROCEDURES = 32
PACKED_WORDS = 320
SHORT_WORDS = 64
JOURNAL_ENTRY = 0
JOURNAL_END = 1
JOURNAL_MISSING = 2
JOURNAL_AGAIN = 3
JOURNAL_SWAPPED = 4
JOURNAL_OTHER_FLIGHT = 5
JOURNAL_DAMAGED = 6
JOURNAL_CUT = 7
JOURNAL_UNREADABLE = 8
JOURNAL_NO_MEMORY = 9
MISSING_RANGES = 64
ENTRY_FIELDS = 3
SHORTEST_ENTRY = 7
WALK_SLOTS = 2048
WALK_POOL = 256
WALK_OUTSIDE = 65536
WALK_WRITE = 1
WALK_READ = 2
WALK_TAKEN = 3
WALK_STEP = 4
WALK_STATUS = 5
WALK_EACH = 1
WALK_CHANGES = 2
WALK_LOADS = 1
WALK_REPORTS = 2
WALK_REACHED = 0
WALK_END = 1
WALK_FULL = 2
WALK_STOPPED = 3
WALK_DAMAGED = 4
WALK_DIFFERS = 5
WALK_MOST_HITS = 20

STATUS = {
    0: "OCP_DONE",
    1: "OCP_NOT_OPEN",
    2: "OCP_ALREADY_OPEN",
    3: "OCP_BAD_PROFILE",
    4: "OCP_BAD_APID",
    5: "OCP_BAD_POOL_WORDS",
    6: "OCP_BAD_CAPACITY",
    7: "OCP_MEMORY",
    8: "OCP_BUFFER_TOO_SMALL",
    9: "OCP_JOURNAL_FULL",
    10: "OCP_DISCARDED_SHORT",
    11: "OCP_DISCARDED_VERSION",
    12: "OCP_DISCARDED_LENGTH",
    13: "OCP_DISCARDED_NOT_TELECOMMAND",
    14: "OCP_DISCARDED_OTHER_APID",
    15: "OCP_NOTHING_DUE",
    16: "OCP_NOT_LOADED",
    17: "OCP_NOT_RUNNING",
    18: "OCP_NONE_RUNNING",
    19: "OCP_NO_BUDGET",
    20: "OCP_NOT_AN_INSTRUCTION",
    21: "OCP_ALREADY_SET",
    22: "OCP_BREAKS_FULL",
    23: "OCP_NOT_SET",
    24: "OCP_OUTSIDE_MEMORY",
    25: "OCP_NO_WORD",
    26: "OCP_NO_ENTRY",
    27: "OCP_BAD_OCTETS",
    28: "OCP_NOT_HELD",
    29: "OCP_SPENT",
    30: "OCP_RELEASED",
    31: "OCP_NO_RECORD",
}


class Engine(C.Structure):
    _fields_ = [
        ("at", C.c_void_p),
    ]


class Outcome(C.Structure):
    _fields_ = [
        ("kind", C.c_uint32),
        ("fault", C.c_uint32),
    ]


class TraceRecord(C.Structure):
    _fields_ = [
        ("id", C.c_uint32),
        ("place", C.c_uint32),
        ("outcome", Outcome),
    ]


class View(C.Structure):
    _fields_ = [
        ("status", C.c_uint32),
        ("cause", C.c_uint32),
        ("fault", C.c_uint32),
        ("place", C.c_uint32),
        ("depth", C.c_uint32),
        ("pending", C.c_uint32),
        ("pending_step", C.c_uint32),
        ("has_budget", C.c_uint32),
        ("remaining", C.c_uint32),
    ]


class JournalPacking(C.Structure):
    _fields_ = [
        ("words", C.c_uint64 * 320),
        ("ids", C.c_uint16 * 32),
        ("counts", C.c_uint32 * 32),
        ("listed", C.c_uint32),
    ]


class WalkBlock(C.Structure):
    _fields_ = [
        ("octets", C.POINTER(C.c_uint8)),
        ("size", C.c_size_t),
        ("in_use", C.c_size_t),
        ("engine", Engine),
    ]


class WalkStretch(C.Structure):
    _fields_ = [
        ("octets", C.POINTER(C.c_uint8)),
        ("length", C.c_uint64),
        ("version", C.c_uint32),
    ]


class WalkPlace(C.Structure):
    _fields_ = [
        ("at", C.c_uint64),
        ("codes", C.c_uint64),
        ("left", C.c_uint64),
        ("known", C.c_uint64),
        ("entry", C.c_uint64),
        ("event", C.c_uint64),
        ("steps_id", C.c_uint32),
        ("steps_left", C.c_uint32),
        ("time", C.c_uint32),
        ("packing", JournalPacking),
    ]


class WalkTable(C.Structure):
    _fields_ = [
        ("id", C.c_uint32),
        ("status", C.c_uint32),
        ("call", C.c_uint8 * 2048),
        ("ran", C.c_uint64 * 2048),
        ("taken", C.c_uint64 * 2048),
    ]


class WalkHit(C.Structure):
    _fields_ = [
        ("event", C.c_uint64),
        ("word", C.c_uint64),
        ("before", C.c_uint64),
        ("after", C.c_uint64),
        ("reason", C.c_uint32),
        ("id", C.c_uint32),
        ("slot", C.c_uint32),
        ("kind", C.c_uint32),
    ]


class WalkLook(C.Structure):
    _fields_ = [
        ("tables", C.POINTER(WalkTable)),
        ("table_count", C.c_uint32),
        ("watch", C.c_uint8 * 256),
        ("counts", C.c_uint32),
        ("inputs_of", C.c_uint32),
        ("statuses", C.c_uint32),
        ("stop_after", C.c_uint32),
        ("room", C.c_uint32),
        ("count", C.c_uint32),
        ("hits", C.POINTER(WalkHit)),
        ("packet", C.POINTER(C.c_uint8)),
        ("packet_length", C.c_uint64),
        ("written", C.c_uint64),
        ("reports", C.c_uint8 * 1600),
    ]


CALLS = {
    "ocp_version": (C.c_uint32, [
    ]),
    "ocp_open": (C.c_uint32, [
        C.POINTER(Engine),
        C.c_uint32,
        C.c_uint32,
        C.c_uint32,
        C.c_uint32,
        C.c_uint32,
    ]),
    "ocp_size": (C.c_size_t, [
        C.c_uint32,
        C.c_uint32,
        C.c_uint32,
        C.c_uint32,
    ]),
    "ocp_close": (C.c_uint32, [
        C.POINTER(Engine),
    ]),
    "ocp_request": (C.c_uint32, [
        C.POINTER(Engine),
        C.c_uint32,
        C.POINTER(C.c_uint8),
        C.c_size_t,
        C.POINTER(C.c_uint8),
        C.c_size_t,
        C.POINTER(C.c_size_t),
    ]),
    "ocp_drain": (C.c_uint32, [
        C.POINTER(Engine),
        C.c_uint32,
        C.POINTER(C.c_uint8),
        C.c_size_t,
        C.POINTER(C.c_size_t),
    ]),
    "ocp_put_word": (C.c_uint32, [
        C.POINTER(Engine),
        C.c_uint64,
        C.c_uint64,
    ]),
    "ocp_step": (C.c_uint32, [
        C.POINTER(Engine),
        C.c_uint16,
        C.POINTER(Outcome),
    ]),
    "ocp_slice": (C.c_uint32, [
        C.POINTER(Engine),
        C.c_uint16,
        C.c_uint32,
        C.POINTER(C.c_uint32),
        C.POINTER(Outcome),
    ]),
    "ocp_round": (C.c_uint32, [
        C.POINTER(Engine),
        C.c_uint16,
        C.c_uint32,
        C.POINTER(C.c_uint32),
        C.POINTER(Outcome),
        C.POINTER(C.c_uint32),
    ]),
    "ocp_next_running": (C.c_uint32, [
        C.POINTER(Engine),
        C.c_uint32,
        C.POINTER(C.c_uint16),
    ]),
    "ocp_set_break": (C.c_uint32, [
        C.POINTER(Engine),
        C.c_uint16,
        C.c_uint16,
    ]),
    "ocp_clear_break": (C.c_uint32, [
        C.POINTER(Engine),
        C.c_uint16,
        C.c_uint16,
    ]),
    "ocp_trace": (C.c_uint32, [
        C.POINTER(Engine),
        C.c_uint16,
        C.c_bool,
    ]),
    "ocp_trace_record": (C.c_uint32, [
        C.POINTER(Engine),
        C.c_uint64,
        C.POINTER(TraceRecord),
        C.POINTER(C.c_uint64),
        C.c_size_t,
    ]),
    "ocp_memory": (C.c_uint32, [
        C.POINTER(Engine),
        C.c_uint16,
        C.c_uint64,
        C.POINTER(C.c_uint8),
        C.c_size_t,
    ]),
    "ocp_view": (C.c_uint32, [
        C.POINTER(Engine),
        C.c_uint16,
        C.POINTER(View),
        C.POINTER(C.c_uint64),
        C.c_size_t,
    ]),
    "ocp_pool_word": (C.c_uint32, [
        C.POINTER(Engine),
        C.c_uint64,
        C.POINTER(C.c_uint64),
    ]),
    "ocp_events": (C.c_uint32, [
        C.POINTER(Engine),
        C.POINTER(C.c_uint64),
    ]),
    "ocp_room": (C.c_uint32, [
        C.POINTER(Engine),
        C.POINTER(C.c_uint64),
        C.POINTER(C.c_uint64),
    ]),
    "ocp_first_entry": (C.c_uint32, [
        C.POINTER(Engine),
        C.POINTER(C.c_uint64),
    ]),
    "ocp_release": (C.c_uint32, [
        C.POINTER(Engine),
        C.c_uint64,
    ]),
    "ocp_entry": (C.c_uint32, [
        C.POINTER(Engine),
        C.c_uint64,
        C.POINTER(C.c_uint8),
        C.c_size_t,
        C.POINTER(C.c_size_t),
    ]),
    "walk_open": (C.c_uint32, [
        C.POINTER(WalkBlock),
        C.c_uint32,
        C.c_uint32,
        C.c_uint32,
        C.c_uint32,
        C.c_uint32,
    ]),
    "walk_close": (C.c_uint32, [
        C.POINTER(WalkBlock),
    ]),
    "walk_save": (C.c_size_t, [
        C.POINTER(WalkBlock),
        C.POINTER(C.c_uint8),
        C.c_size_t,
    ]),
    "walk_restore": (None, [
        C.POINTER(WalkBlock),
        C.POINTER(C.c_uint8),
        C.c_size_t,
    ]),
    "walk": (C.c_uint32, [
        C.POINTER(WalkBlock),
        C.POINTER(WalkStretch),
        C.POINTER(WalkPlace),
        C.c_uint64,
        C.POINTER(WalkLook),
    ]),
}
