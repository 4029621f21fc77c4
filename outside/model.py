"""A plain model of the program, written without sight of its code.

`run` says what one run of a program does whose store doesn't last: what it writes on standard
output and standard error, its exit status, and every byte of its file afterwards. It is made to be
read against the documentation, so it is slow and simple: contents are whole lists of bytes, the
store is a plain map, free places are searched page by page. A store that lasts is in lasting.py,
which has the lines, the transactions and the judgement of a group from here.

The order of this file: what is built, words, lines and contents, the store and its places,
transactions and answers, the lead of a group, the play of a script, the whole run.
"""

import re
from functools import lru_cache
from hashlib import sha256
from typing import NamedTuple, Optional

PAGE = 4096  # bytes
UNIT = 1024  # data pages
GREATEST_SIZE = 381_669_375  # bytes of a content
GREATEST_TIER = 10
GREATEST_NUMBER = 2**62
KEYS_OF_A_TRANSACTION = 16
LONGEST_LINE = 65_536  # bytes without the line's end
MOST_LINES = 1_000_000


# What is built ------------------------------------------------------------------------------


class Built(NamedTuple):
    """The part of the language that the program answers."""

    forms: frozenset  # first words of the forms of words; any other form is faulty
    verbs: frozenset  # verbs of script lines; any other verb of the grammar is not built
    lasts: bool  # whether `fresh` formats its file, and a lead commits to the log


# The program of today. To widen the model, widen this table; a verb that has no function in
# ACTIONS or RUN_LINES below needs one. `run` is of the form `fresh`; runs of the other three are
# in disk_forms.py.
TODAY = Built(
    forms=frozenset({"fresh", "format", "check", "show"}),
    verbs=frozenset({"begin", "get", "stat", "put", "del", "commit", "abort", "lead"}),
    lasts=False,
)

# The program once its store lasts. All its runs are in lasting.py.
LASTING = Built(forms=TODAY.forms | {"steps"}, verbs=TODAY.verbs | {"checkpoint"}, lasts=True)

# What the program is compared with: TODAY or LASTING.
BUILT = LASTING


# Words --------------------------------------------------------------------------------------

FORMS = (
    ("format", "FILE", "UNITS", "ROOM"),
    ("fresh", "FILE", "UNITS", "ROOM"),
    ("steps", "FILE"),
    ("drill", "FILE", "FROM", "COUNT"),
    ("check", "FILE"),
    ("show", "FILE"),
    ("many", "FILE"),
)

# The least and the greatest number that each of these words may be.
WORD_LIMITS = {"UNITS": (1, 16_384), "ROOM": (1, 1024), "FROM": (0, 65_535), "COUNT": (1, 100_000)}

LIST_OF_FORMS = "".join(" ".join(form) + "\n" for form in FORMS).encode()


def read_number(word: bytes, least: int, greatest: int) -> Optional[int]:
    """The number that a word spells: decimal digits, no leading zero, within the limits."""
    if not re.fullmatch(rb"0|[1-9][0-9]{0,18}", word):
        return None
    number = int(word)
    return number if least <= number <= greatest else None


def is_text(word: bytes) -> bool:
    """Whether a word is UTF-8."""
    try:
        word.decode("utf-8")
    except UnicodeDecodeError:
        return False
    return True


def read_form(words: list, built: Built) -> Optional[dict]:
    """The form that the words are, as a map from the form's names to values; None for no form."""
    if not all(is_text(word) for word in words):
        return None
    for form in FORMS:
        if form[0] not in built.forms or len(words) != len(form) or words[0] != form[0].encode():
            continue
        read = {"form": form[0]}
        for name, word in zip(form[1:], words[1:]):
            read[name] = (word or None) if name == "FILE" else read_number(word, *WORD_LIMITS[name])
        return None if None in read.values() else read
    return None


# Lines --------------------------------------------------------------------------------------


def split_lines(script: bytes) -> list:
    """The lines of a script without their ends. The last line may lack its end, and nothing
    after the last end is no line."""
    lines = script.split(b"\n")
    return lines[:-1] if lines[-1] == b"" else lines


class Hex(NamedTuple):
    """A content that the line spells in digits."""

    given: bytes

    @property
    def size(self) -> int:
        return len(self.given)

    def bytes(self) -> bytes:
        return self.given


class Made(NamedTuple):
    """A content that the line gives by its length and its first byte."""

    size: int
    first: int

    def bytes(self) -> bytes:
        circle = made_circle(self.first)
        return (circle * (self.size // len(circle) + 1))[: self.size]


@lru_cache(maxsize=None)
def made_circle(first: int) -> bytes:
    """The first 65,536 bytes of a made content: byte i is (first + 7 i + i / 256) mod 256, by
    whole division. From there on the bytes repeat, since both 7 i and i / 256 do mod 256."""
    return bytes((first + 7 * i + i // 256) % 256 for i in range(65_536))


def read_content(word: bytes):
    """`x:` and an even number of hexadecimal digits of either case, or `g:LEN:FIRST`."""
    if re.fullmatch(rb"x:(?:[0-9a-fA-F]{2})*", word):
        return Hex(bytes.fromhex(word[2:].decode()))
    made = re.fullmatch(rb"g:([0-9]+):([0-9]+)", word)
    if made:
        size = read_number(made[1], 0, 4_294_967_295)
        first = read_number(made[2], 0, 255)
        if size is not None and first is not None:
            return Made(size, first)
    return None


def read_key(word: bytes) -> Optional[bytes]:
    """A key: a relation of 1 to 16 characters, `/`, and a name of 1 to 47 characters."""
    return word if re.fullmatch(rb"[a-z0-9._-]{1,16}/[a-z0-9._-]{1,47}", word) else None


def read_path(word: bytes) -> Optional[bytes]:
    """Any word stands where a path is due; whether it is one is a matter of the answer."""
    return word or None


def number_to(greatest: int):
    """A reader of numbers from 0 to `greatest`."""
    return lambda word: read_number(word, 0, greatest)


# What follows a session's number: each verb with the readers of the words behind it.
SESSION_LINES = {
    "begin": (),
    "commit": (),
    "abort": (),
    "get": (read_key,),
    "stat": (read_key,),
    "del": (read_key,),
    "put": (read_key, read_content),
    "append": (read_key, read_content),
    "find": (read_content,),
    "order": (read_content, number_to(65_536)),
    "open": (read_path,),
    "ls": (read_path,),
    "pread": (number_to(255), number_to(4_294_967_295), number_to(65_536)),
    "close": (number_to(255),),
}

# Lines of one word, which belong to no session.
RUN_LINES = ("lead", "checkpoint")


class Step(NamedTuple):
    """What a line asks for: a session (none for a line of the run), a verb and its values."""

    session: Optional[int]
    verb: str
    values: tuple


def read_step(line: bytes) -> Optional[Step]:
    """The step of a line that isn't skipped, or None where the line is malformed. Words are
    parted by one blank each, with none at either end."""
    words = line.split(b" ")
    if len(words) == 1:
        return next((Step(None, verb, ()) for verb in RUN_LINES if words[0] == verb.encode()), None)
    session = read_number(words[0], 0, 15)
    verb = words[1].decode("latin-1")
    readers = SESSION_LINES.get(verb)
    if session is None or readers is None or len(words) != 2 + len(readers):
        return None
    values = tuple(read(word) for read, word in zip(readers, words[2:]))
    return None if None in values else Step(session, verb, values)


# The store and its places -------------------------------------------------------------------


def tier(i: int) -> int:
    """The tier of a blob's extent i, which has 2^tier pages: four extents of each tier, and all
    later ones of the greatest."""
    return min(i // 4, GREATEST_TIER)


def extents_of(size: int) -> int:
    """The least number of extents that hold the full pages of a content of this size."""
    count = held = 0
    while held < size // PAGE:
        held += 2 ** tier(count)
        count += 1
    return count


class Blob(NamedTuple):
    """An object of the store."""

    content: bytes
    number: int  # of the entry that wrote it
    heads: tuple  # first pages of its extents, in order
    tail: Optional[int]  # the page of the bytes past the last full page, where there are any

    @property
    def size(self) -> int:
        return len(self.content)

    def owned(self) -> list:
        """The (head, tier) of every extent and of the tail page, which counts as tier 0."""
        extents = [(head, tier(i)) for i, head in enumerate(self.heads)]
        return extents + ([] if self.tail is None else [(self.tail, 0)])

    def pages(self) -> list:
        """The pages that hold its bytes, in the order of the bytes. An extent's unused pages
        aren't among them."""
        extents = [head + j for i, head in enumerate(self.heads) for j in range(2 ** tier(i))]
        return extents[: len(self.content) // PAGE] + ([] if self.tail is None else [self.tail])


def state_length(key: bytes, size: int) -> int:
    """The bytes that an object's state takes in the room for states."""
    return 77 + len(key) + 36 * extents_of(size) + (4 if size % PAGE else 0)


class Store:
    """The committed objects, and the data pages as they read."""

    def __init__(self, units: int, room: int):
        self.blobs = {}  # from key to Blob
        self.last = 0  # the last number
        self.data_pages = UNIT * units
        self.room = PAGE * room
        self.disk = {}  # from data page to its bytes; a page that was never written is zeros

    def number(self, key: bytes) -> Optional[int]:
        """The number of the key's object, or None where there is none."""
        return self.blobs[key].number if key in self.blobs else None

    def states_length(self) -> int:
        """The length of all states."""
        return sum(state_length(key, blob.size) for key, blob in self.blobs.items())

    def content(self, key: bytes) -> bytes:
        """The content of a key that is there."""
        return self.blobs[key].content

    def size_and_digest(self, key: bytes) -> tuple:
        """What is told of that content where its bytes aren't asked for."""
        return size_and_digest(self.blobs[key].content)

    def commit(self, group: "Group") -> None:
        """Makes the changes of a group's committing members."""
        group.commit()

    def turn(self) -> None:
        """Turns halves, of which a store that doesn't last has none."""

    def pour(self, blob: Blob) -> None:
        """Writes a content to its pages, each page once, the tail page filled with zeros."""
        for i, page in enumerate(blob.pages()):
            self.disk[page] = blob.content[PAGE * i : PAGE * (i + 1)].ljust(PAGE, b"\0")


def size_and_digest(content: bytes) -> tuple:
    return len(content), sha256(content).hexdigest()


class Space:
    """Which data pages are owned."""

    def __init__(self, owned: list, pages: int):
        self.taken = bytearray(pages)
        for head, of_tier in owned:
            self.taken[head : head + 2**of_tier] = b"\1" * 2**of_tier

    def fit(self, of_tier: int) -> Optional[int]:
        """The least multiple of 2^tier from which 2^tier pages within the data area are free."""
        width = 2**of_tier
        free = bytes(width)
        for head in range(0, len(self.taken) - width + 1, width):
            if self.taken[head : head + width] == free:
                return head
        return None

    def take(self, of_tier: int) -> int:
        """Takes that place, or refuses."""
        head = self.fit(of_tier)
        if head is None:
            raise NoSpace(of_tier)
        self.taken[head : head + 2**of_tier] = b"\1" * 2**of_tier
        return head


class NoSpace(Exception):
    """There is no free aligned place of this tier."""


# Transactions and answers -------------------------------------------------------------------


class Refused(Exception):
    """A line is refused with this text."""


class Transaction:
    """What a session has read and changed since its `begin`."""

    def __init__(self, session: int, nth: int):
        self.session = session
        self.nth = nth  # which one of its session's transactions it is, counted from 1
        self.reads = {}  # from key to the number found, or None where nothing was there
        self.changes = {}  # from key to the content put, or None where it is deleted

    def touches(self, key: bytes) -> bool:
        return key in self.reads or key in self.changes

    def has(self, store: Store, key: bytes) -> bool:
        """Whether the transaction sees anything under the key: its own change comes first."""
        if key in self.changes:
            return self.changes[key] is not None
        return key in store.blobs

    def content(self, store: Store, key: bytes) -> bytes:
        """The bytes that it sees under a key that it has."""
        return self.changes[key] if key in self.changes else store.content(key)

    def size_and_digest(self, store: Store, key: bytes) -> tuple:
        """The same of their size and digest."""
        return size_and_digest(self.changes[key]) if key in self.changes else store.size_and_digest(key)

    def refuse_too_many(self, key: bytes) -> None:
        """An untouched key would be one too many."""
        touched = len(self.reads.keys() | self.changes.keys())
        if not self.touches(key) and touched == KEYS_OF_A_TRANSACTION:
            raise Refused(f"too-many {touched + 1}")

    def refuse_stale(self, store: Store, key: bytes) -> None:
        """The key was read, not changed, and has another number now."""
        now = store.number(key)
        if key in self.reads and key not in self.changes and self.reads[key] != now:
            raise Refused("stale " + ("none" if now is None else str(now)))

    def read(self, store: Store, key: bytes) -> None:
        """Reads the key, which must be there; the read is recorded even where it isn't."""
        self.refuse_too_many(key)
        self.refuse_stale(store, key)
        if not self.touches(key):
            self.reads[key] = store.number(key)
        if not self.has(store, key):
            raise Refused("absent")


class Session:
    """A session has no transaction, an open one, or a queued one."""

    def __init__(self, number: int):
        self.number = number
        self.begun = 0  # transactions so far
        self.transaction = None
        self.queued = False

    def leave(self) -> None:
        """Its request was answered, so that it has no transaction."""
        self.transaction = None
        self.queued = False

    def open_transaction(self) -> Transaction:
        """The open transaction, which most lines need."""
        self.refuse_busy()
        if self.transaction is None:
            raise Refused("no-transaction")
        return self.transaction

    def refuse_busy(self) -> None:
        if self.queued:
            raise Refused("busy")


def to_hex(content: bytes) -> str:
    """Bytes as digits; no bytes are a dash."""
    return content.hex() or "-"


def begin(store: Store, session: Session) -> str:
    session.refuse_busy()
    if session.transaction is not None:
        raise Refused("already")
    session.begun += 1
    session.transaction = Transaction(session.number, session.begun)
    return "begun"


def get(store: Store, session: Session, key: bytes) -> str:
    transaction = session.open_transaction()
    transaction.read(store, key)
    content = transaction.content(store, key)
    return f"value {len(content)} {to_hex(content)}"


def stat(store: Store, session: Session, key: bytes) -> str:
    transaction = session.open_transaction()
    transaction.read(store, key)
    size, digest = transaction.size_and_digest(store, key)
    return f"stat {size} {digest}"


def put(store: Store, session: Session, key: bytes, content) -> str:
    transaction = session.open_transaction()
    transaction.refuse_too_many(key)
    if content.size > GREATEST_SIZE:
        raise Refused(f"too-long {content.size}")
    transaction.changes[key] = content.bytes()
    return "put"


def delete(store: Store, session: Session, key: bytes) -> str:
    transaction = session.open_transaction()
    transaction.read(store, key)
    transaction.changes[key] = None
    return "deleted"


def commit(store: Store, session: Session) -> str:
    session.open_transaction()
    session.queued = True
    return "queued"


def abort(store: Store, session: Session) -> str:
    session.open_transaction()
    session.transaction = None
    return "aborted"


# The lines of a session that the model answers. The place for `append` is here: its change is
# the old content followed by the new bytes, but its object keeps the old heads, so a change
# must then say which of the two it is. The other verbs see committed objects alone and are
# answered in every state of the session.
ACTIONS = {
    "begin": begin,
    "get": get,
    "stat": stat,
    "put": put,
    "del": delete,
    "commit": commit,
    "abort": abort,
}


def turn(store: Store, session: Session, step: Step) -> str:
    """The answer of a session's line, without the session's number."""
    try:
        return ACTIONS[step.verb](store, session, *step.values)
    except Refused as refused:
        return str(refused)


# The lead of a group ------------------------------------------------------------------------


class Entry(NamedTuple):
    """A committing member of a group."""

    number: int
    session: int
    nth: int
    changes: dict  # from key, in their order, to its new Blob, or None where it goes


class Group:
    """A group while it is built from the front of the queue. The store stays as it was until
    the whole group is judged."""

    def __init__(self, store: Store):
        self.store = store
        self.last = store.last
        self.owned = [block for blob in store.blobs.values() for block in blob.owned()]
        self.growth = 0  # of the states' length, by the committing members
        self.changed = {}  # from key to its new Blob, or None where it goes
        self.entries = []  # of the committing members

    def ends_before(self, transaction: Transaction) -> bool:
        """Whether the transaction touches a key that an earlier committing member changes."""
        return any(transaction.touches(key) for key in self.changed)

    def judge(self, transaction: Transaction) -> str:
        """The reply to the next member: the first refusal that applies, or its number. A refused
        member takes no place and no number. (Numbers run out over a file that has high ones.)"""
        for key in sorted(transaction.reads):
            read, now = transaction.reads[key], self.store.number(key)
            if read != now:
                shown = ["none" if number is None else number for number in (read, now)]
                return f"conflict {key.decode()} {shown[0]} {shown[1]}"

        if self.last == GREATEST_NUMBER:
            return f"no-number {self.last}"

        # Owned is what the store owns, also what this group replaces, and what the members
        # before took. Places are taken key by key, extents in order, then the tail.
        space = Space(self.owned, self.store.data_pages)
        blobs = {}
        for key in sorted(transaction.changes):
            content = transaction.changes[key]
            try:
                blobs[key] = content if content is None else self.place(space, content)
            except NoSpace as none:
                return f"no-space {key.decode()} {none}"

        growth = max(0, sum(self.lengthening(key, blob) for key, blob in blobs.items()))
        need = self.store.states_length() + self.growth + growth
        if need > self.store.room:
            return f"no-room {need} {self.store.room}"

        self.last += 1
        self.growth += growth
        self.owned += [block for blob in blobs.values() if blob for block in blob.owned()]
        self.changed.update(blobs)
        self.entries.append(Entry(self.last, transaction.session, transaction.nth, blobs))
        return f"committed {self.last}"

    def place(self, space: Space, content: bytes) -> Blob:
        """A new object with its places: for each extent, then for the tail, the least one free."""
        heads = tuple(space.take(tier(i)) for i in range(extents_of(len(content))))
        tail = space.take(0) if len(content) % PAGE else None
        return Blob(content, self.last + 1, heads, tail)

    def lengthening(self, key: bytes, blob: Optional[Blob]) -> int:
        """How much longer the states become by one change."""
        old = self.store.blobs.get(key)
        lengths = [0 if one is None else state_length(key, one.size) for one in (old, blob)]
        return lengths[1] - lengths[0]

    def commit(self) -> None:
        """Writes the new contents, then changes the objects, where the store doesn't last. What was
        replaced is owned by no object from then on, and its pages keep their bytes."""
        for key in sorted(self.changed):
            if self.changed[key] is not None:
                self.store.pour(self.changed[key])
        for key, blob in self.changed.items():
            self.store.blobs.pop(key, None)
            if blob is not None:
                self.store.blobs[key] = blob
        self.store.last = self.last


def lead(store: Store, sessions: list, queue: list) -> list:
    """Leads one group of the queue, whose members are session numbers. The answer lines; each
    member leaves the queue and has no transaction afterwards."""
    if not queue:
        return ["idle"]
    group = Group(store)
    lines = []
    while queue and not group.ends_before(sessions[queue[0]].transaction):
        number = queue.pop(0)
        lines.append(f"{number} {group.judge(sessions[number].transaction)}")
        sessions[number].leave()
    store.commit(group)
    return lines


# The play of a script -----------------------------------------------------------------------


class Said(NamedTuple):
    """What came of one line, or of the run's end."""

    cause: str  # the line's verb, or one of the words below
    answers: tuple  # lines of text without their ends
    left: int = 0  # requests that a lead left in the queue


BLANK = Said("blank", ())
COMMENT = Said("comment", ())

# The exit status and the closing line of each way in which a script ends before its end.
MALFORMED = (2, "malformed line {}")
NOT_BUILT = (10, "not built line {}")


class Ended(Exception):
    """The script ends here, with a status and a closing line, for a cause."""

    def __init__(self, end: tuple, cause: str):
        super().__init__(cause)
        self.status, self.closing = end
        self.cause = cause


def read_line(number: int, line: bytes, built: Built) -> Optional[Step]:
    """What a line asks for, or None where it is skipped. The bounds on lines come first."""
    if number > MOST_LINES:
        raise Ended(MALFORMED, "one line too many")
    if len(line) > LONGEST_LINE:
        raise Ended(MALFORMED, "line too long")
    if line == b"" or line.startswith(b"#"):
        return None
    step = read_step(line)
    if step is None:
        raise Ended(MALFORMED, "no line of the grammar")
    if step.verb not in built.verbs:
        raise Ended(NOT_BUILT, step.verb)
    return step


def play(store: Store, script: bytes, built: Built) -> tuple:
    """Runs the lines one by one. What came of each, and the exit status. At the end of the
    script open and queued transactions are dropped."""
    sessions = [Session(number) for number in range(16)]
    queue = []
    said = []
    for number, line in enumerate(split_lines(script), start=1):
        try:
            step = read_line(number, line, built)
            said.append(answered(store, sessions, queue, step) if step else COMMENT if line else BLANK)
        except Ended as end:
            return said + [Said(end.cause, (end.closing.format(number),))], end.status
    return said + [Said("end of the script", ())], 0


def answered(store: Store, sessions: list, queue: list, step: Step) -> Said:
    """Answers one line that isn't skipped."""
    if step.verb == "lead":
        answers = lead(store, sessions, queue)
        return Said("lead", tuple(answers), len(queue))
    if step.verb == "checkpoint":
        store.turn()
        return Said("checkpoint", ("checkpointed",))
    answer = turn(store, sessions[step.session], step)
    if answer == "queued":
        queue.append(step.session)
    return Said(step.verb, (f"{step.session} {answer}",))


def text_of(said: list) -> bytes:
    """Standard output."""
    return "".join(answer + "\n" for one in said for answer in one.answers).encode()


# The whole run ------------------------------------------------------------------------------


class Outcome(NamedTuple):
    """What one run leaves behind."""

    text: bytes  # standard output
    status: int  # exit status
    errors: Optional[bytes]  # standard error, or None where nothing is said of it
    length: Optional[int]  # bytes of the file, or None where the run leaves the file alone
    pages: dict  # from page of the file to its bytes; all other pages are zeros
    said: list  # what came of each line, and of the run's end


def run(words: list, script: bytes, opens: bool = True, built: Built = TODAY) -> Outcome:
    """One run over these words, which are a form `fresh` or no form at all, and this script, of a
    program whose store doesn't last. `opens`: the system lets the file be made."""
    form = read_form(words, built)
    if form is None:
        said = [Said("faulty words", ("usage",))]
        return Outcome(text_of(said), 8, LIST_OF_FORMS, None, {}, said)
    if not opens:
        errors = b"cannot open " + form["FILE"] + b"\n"
        return Outcome(b"", 11, errors, None, {}, [Said("no file", ())])
    units, room = form["UNITS"], form["ROOM"]
    store = Store(units, room)
    said, status = play(store, script, built)
    # In front of the data area stand the selector, two headers, two logs of 512 pages and two
    # areas for states. `fresh` leaves them zeros: it writes data pages only.
    data = 1027 + 2 * room
    pages = {data + page: held for page, held in store.disk.items()}
    return Outcome(text_of(said), status, None, PAGE * (data + UNIT * units), pages, said)
