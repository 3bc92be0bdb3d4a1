"""What a site that runs on a machine of its own stands on (turns.py), and its callers (caller.py): an engine, which carries lines and keeps
states. redis_engine.py is one. Another is a class with the calls of `Engine`; what follows is what it has to keep.

1. ONE STATE BEHIND ANOTHER. `commit` puts a state and an offset in the place of the offset with which `read` began, or does nothing: of
   two runners that go on from one state one has `Overtaken`, however late it comes.
2. NOTHING BEFORE. What a node said is let out with the state that it then had, or behind it, and never before that is kept.
3. WHAT IS KEPT STAYS. Where an engine may forget what it kept last, as by a power cut, all that it keeps goes back to one moment: states,
   offsets and inputs together. Then answers that were given since are lost, and the nodes go on from there as if they never were.

More isn't asked of it. Lines may be lost, repeated, late and in another order, as on any network: ticks send packets again, callers ask again,
and a node takes nothing twice. So what a node said may be let out behind the commit and not in it, and an offset may be behind its state.
"""


class Overtaken(Exception):
    """Another offset is kept of this node than the one that was gone on from: another runner was faster, or the engine has gone back.
    Nothing was kept, and nothing was let out."""


class Lost(ConnectionError):
    """The engine isn't reached, or doesn't do what it is asked: why. What was asked of it may have been done."""


class Barred(Lost, PermissionError):
    """The engine doesn't let this program in, and waiting won't help."""


class Engine:
    """A cluster's lines and states. Each runner and each caller has one for itself; every call may raise `Lost`.

    Nodes have ids as "n0", clients have the names of the text, lines are bytes without a newline, states and what is told are plain data for
    JSON. Offsets are the engine's own, as text; `FIRST` stands before all lines. `where` says in words which cluster this is.
    """

    FIRST, where = "", ""

    # ---- the cluster
    def begin(self, text, objects):
        """Keeps a text (nodes.Text) and the names of its objects, where the cluster has none. Returns whether it had none; `Unable` where it
        has another text."""
        raise NotImplementedError

    def text(self):
        """The bytes of the cluster's text, None where there is no such cluster."""
        raise NotImplementedError

    # ---- a node's runner
    def load(self, node):
        """The offset and the state that are kept, `FIRST` and None of a node that hasn't begun."""
        raise NotImplementedError

    def read(self, node, offset, most, seconds):
        """At most so many of the input's lines behind the offset, each with its own offset; none where none comes for some seconds.
        `Overtaken` where another offset is kept than this."""
        raise NotImplementedError

    def commit(self, node, offset, state, packets, answers):
        """Ends the turn that `read` began: keeps this offset and the state, and lets out what was said: pairs of a node and a line, and pairs of
        a client and a line. All of that, or `Overtaken`. Where the state is None there is only something to be let out."""
        raise NotImplementedError

    def tell(self, node, told):
        """Shows for some seconds what the node's runner tells of itself: that it is there, and its counts."""
        raise NotImplementedError

    def told(self, node):
        """What was told in the last seconds, or None."""
        raise NotImplementedError

    # ---- callers
    def site_of(self, client):
        """The site of a client, None where the text lists none of this name; `Lost` where there is no such cluster."""
        raise NotImplementedError

    def put(self, node, line):
        """Puts a line into a node's input."""
        raise NotImplementedError

    def last(self, client):
        """The offset of the last answer to a client."""
        raise NotImplementedError

    def answers(self, client, after, seconds):
        """The answers to a client behind an offset, each with its own; none where none comes for some seconds. The last few are kept."""
        raise NotImplementedError

    # ---- who asks how it goes
    def seen(self):
        """The names of the objects, and of each node, site by site, the state that is kept, or None, and what its runner told, or None; all of
        one moment. `Lost` where there is no such cluster."""
        raise NotImplementedError
