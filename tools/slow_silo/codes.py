"""The codes of faults, and the text of each."""

NOT_A_REQUEST = 10
TOO_LONG = 11
TOO_DEEP = 12
NOT_WHOLE = 13
NOT_BYTES = 14
BAD_GRAIN = 20
UNKNOWN_TENANT = 21
UNKNOWN_KIND = 22
ACROSS_TENANTS = 40
NO_ACTIVATION = 41
MAILBOX_FULL = 42
NO_NUMBER = 43
STORAGE_FAILED = 53
STATE_CHANGED = 54
VERSIONS_SPENT = 56
UNKNOWN_METHOD = 60
MISFIT = 61
OUT_OF_RANGE = 62
STATE_TOO_LARGE = 63
NO_MEMORY = 70

# In each, a pair of braces stands for a name: a tenant, a kind, or a grain's text.
TEXTS = {
    NOT_A_REQUEST: "line is not a request",
    TOO_LONG: "line is too long",
    TOO_DEEP: "arguments are too deep",
    NOT_WHOLE: "number is not a whole number of 64 bits",
    NOT_BYTES: "bytes are not well formed",
    BAD_GRAIN: "grain name is not well formed",
    UNKNOWN_TENANT: "tenant {} is unknown",
    UNKNOWN_KIND: "kind {} is unknown",
    ACROSS_TENANTS: "tenant {} may not call a grain of tenant {}",
    NO_ACTIVATION: "tenant {} has no free activation",
    MAILBOX_FULL: "mailbox of {} is full",
    NO_NUMBER: "tenant {} has no request number left",
    STORAGE_FAILED: "storage failed",
    STATE_CHANGED: "stored state of {} has changed",
    VERSIONS_SPENT: "versions of {} are spent",
    UNKNOWN_METHOD: "method is unknown",
    MISFIT: "arguments do not fit",
    OUT_OF_RANGE: "result is out of range",
    STATE_TOO_LARGE: "state is too large",
    NO_MEMORY: "turn met want of memory",
}

# What `answer` with a folder of data tells too, if its words say so (receipts.py, tenants.py, room.py). No journal has these.
WAS_ANSWERED = 15
NOT_SEEN = 44
MANY_CALLERS = 45
TABLE_SIZE = 46
HAS_SOMETHING = 47
NO_ROOM = 57
TEXTS_BESIDE = {
    WAS_ANSWERED: "request {} was answered",
    NOT_SEEN: "too many replies of {} were not seen",
    MANY_CALLERS: "tenant {} has too many callers",
    TABLE_SIZE: "there may be 1 to 1000 tenants",
    HAS_SOMETHING: "tenant {} has {} requests, {} sends, {} activations, {} rows, {} callers",
    NO_ROOM: "tenant {} has no room left",
}

# The codes with which a line of a form may be refused: such a refusal is a step of its caller.
LINE_REFUSALS = (TOO_LONG, TOO_DEEP, NOT_WHOLE, NOT_BYTES, BAD_GRAIN, STATE_TOO_LARGE)


def text_of(code: int, *names: object) -> str:
    return (TEXTS.get(code) or TEXTS_BESIDE[code]).format(*names)
