"""A script of several sessions while it is written."""

from parts import content

VERBS = ["begin", "get", "stat", "put", "del", "commit", "abort", "lead"]

# What mostly follows in each state of a session. A queued one waits, or a group is led.
SUITED = {
    "none": ["begin"],
    "open": ["put", "put", "put", "get", "stat", "del", "get", "commit", "commit", "abort"],
    "queued": ["wait", "wait", "wait", "lead"],
}


class Talk:
    """The lines so far, and roughly what each session is doing, so that the next line can suit
    it. It takes every member of a group for a committing one."""

    def __init__(self, r):
        self.r = r
        self.lines = []
        self.state = ["none"] * 16
        self.touched = [set() for _ in range(16)]
        self.changed = [set() for _ in range(16)]
        self.queue = []

    def say(self, session: int, verb: str, *words) -> None:
        """A line of a session."""
        self.lines.append(b" ".join([b"%d" % session, verb.encode(), *words]))
        if verb == "begin" and self.state[session] == "none":
            self.state[session] = "open"
            self.touched[session] = set()
            self.changed[session] = set()
        elif self.state[session] == "open":
            self.follow(session, verb, words)

    def follow(self, session: int, verb: str, words) -> None:
        """What a line does to an open transaction."""
        if verb == "commit":
            self.state[session] = "queued"
            self.queue.append(session)
        elif verb == "abort":
            self.state[session] = "none"
        elif words:
            self.touched[session].add(words[0])
            self.changed[session] |= {words[0]} if verb in ("put", "del") else set()

    def lead(self) -> None:
        self.lines.append(b"lead")
        changed = set()
        while self.queue and not changed & self.touched[self.queue[0]]:
            session = self.queue.pop(0)
            changed |= self.changed[session]
            self.state[session] = "none"

    def drain(self) -> None:
        """Leads until nothing is queued, and once more now and then."""
        while self.queue:
            self.lead()
        if self.r.random() < 0.15:
            self.lead()

    def free(self, count: int) -> list:
        """At most so many sessions, all without a transaction."""
        found = [session for session in range(16) if self.state[session] == "none"]
        return self.r.sample(found, min(count, len(found)))

    def act(self, session: int, verb: str, key: bytes, most_pages: int) -> None:
        """A line of this verb, with what it needs."""
        if verb == "lead":
            self.lead()
        elif verb == "put":
            self.say(session, verb, key, content(self.r, most_pages))
        elif verb in ("get", "stat", "del"):
            self.say(session, verb, key)
        elif verb != "wait":
            self.say(session, verb)

    def wander(self, steps: int, sessions: list, keys: list, most_pages: int = 5) -> None:
        """Lines that mostly go well together, with one that doesn't now and then."""
        for _ in range(steps):
            session = self.r.choice(sessions)
            suited = SUITED[self.state[session]]
            verb = self.r.choice(suited if self.r.random() < 0.88 else VERBS)
            self.act(session, verb, self.r.choice(keys), most_pages)

    def members(self, transactions: list, mixed: bool = False, others=()) -> None:
        """Begins these transactions, one a session, and commits them in their order. Each is a
        list of a verb and its words. `mixed`: the sessions take turns. The open transactions
        of other sessions are committed somewhere among them."""
        sessions = self.free(len(transactions))
        steps = []
        for session, changes in zip(sessions, transactions):
            self.say(session, "begin")
            steps += [(at, session, change) for at, change in enumerate(changes)]
        if mixed:
            steps.sort(key=lambda step: step[0])
        for _, session, change in steps:
            self.say(session, *change)
        for session in others:
            sessions.insert(self.r.randint(0, len(sessions)), session)
        for session in sessions:
            self.say(session, "commit")

    def play_out(self, transactions: list, groups=(1, 1, 2, 3, 5, 16)) -> None:
        """Plays the transactions in their order, so many at a time in one group."""
        while transactions:
            count = self.r.choice(groups)
            self.members(transactions[:count], self.r.random() < 0.3)
            self.drain()
            transactions = transactions[count:]

    def read_back(self, keys: list, big: bool = False) -> None:
        """A transaction that reads. Big contents are mostly asked for their digests alone."""
        keys = self.r.sample(keys, min(len(keys), self.r.randint(0, 16)))
        for session in self.free(1):
            self.say(session, "begin")
            for key in keys:
                verb = "stat" if self.r.random() < (0.95 if big else 0.3) else "get"
                self.say(session, verb, key)

