"""A replica of a board in a process of its own, the program replica_lines: each call writes a line and waits for its answer.
docs/FORMATS.md has the lines, with all commands, refusals and faults.

    with Replica.open("bin/replica_lines", number=3, seed=secrets.randbits(53)) as board:
        board.receive(message)      # a message's text, as it came from a room or another replica
        message = board.change({"name": "set", "id": "box", "member": "x", "value": 40})
        message = board.undo()      # a text too, which goes to the others as it is: no number is written anew
"""
import contextlib
import json
import subprocess
import threading
import time as clock


class Refused(Exception):
    """The board refuses this, and nothing is changed: words says why, name of which id or member, None where of none."""

    def __init__(self, words, name):
        super().__init__(words if name is None else f"{words}: {name}")
        self.words, self.name = words, name


class Faulty(ValueError):
    """What was given has a fault, which str tells, and nothing is changed."""


class WantOfMemory(MemoryError):
    """The program wants memory, and nothing is changed."""


class Ended(ConnectionError):
    """The program is gone, and the replica with it."""


class Replica(contextlib.AbstractContextManager):
    """A living replica. Several threads may call it: one line at a time is under way. A command, a list of elements and a
    scene are values of Python, or the text of one JSON value, which goes in as it is."""

    @classmethod
    def open(cls, program, number, seed, scene=None):
        """Runs the program, a path or a list of words, and opens a replica that begins with a scene, or empty. Each replica
        of a board needs a number of its own (0 to 63), and each that is opened a fresh seed (0 to 2 ** 53 - 1)."""
        replica = cls(program)
        try:
            replica._ask(replica="1", number=json.dumps(number), seed=json.dumps(seed), scene=_text(scene))
        except BaseException:
            replica.close()
            raise
        return replica

    def __init__(self, program):
        # A control-C at the terminal is for this process: the program, in a session of its own, ends with its input.
        self._run = subprocess.Popen(program, stdin=subprocess.PIPE, stdout=subprocess.PIPE, start_new_session=True)
        self._lock = threading.Lock()

    def __exit__(self, *_):
        self.close()

    def close(self):
        """Ends the program, if it is there, and gives its status, less than 0 where a signal ended it."""
        with self._lock, contextlib.suppress(BrokenPipeError), self._run:
            pass
        return self._run.returncode

    def change(self, command, capture="now", time=None):
        """Makes a change, and gives the message to send, or None where nothing changed. Times are in milliseconds."""
        return self._step("change", time, capture=json.dumps(capture), command=_text(command))

    def undo(self, time=None):
        """Takes back the last own change that is still seen, and gives the message to send. Refused where there is none."""
        return self._step("undo", time)

    def redo(self, time=None):
        """Takes back the last undo, and gives the message to send. Refused where there is none."""
        return self._step("redo", time)

    def take(self, elements):
        """Takes these elements, and gives how many: those that are held aren't taken."""
        return int(self._told("take", elements=_text(elements)))

    def receive(self, message):
        """Takes the elements of a message's text, and gives how many: none where it is of another type."""
        return int(self._told("receive", message=json.dumps(message)))

    def hold(self, id):
        """From now on no update of this element is taken, since somebody is at it."""
        self._told("hold", id=json.dumps(id))

    def release(self, id):
        """Updates of this element are taken again. Those that came meanwhile aren't kept: they must come again."""
        self._told("release", id=json.dumps(id))

    def scene(self):
        """The text of the scene that is shown."""
        return self._told("scene")

    def state(self):
        """The text of all that is stored, deleted elements too: a scene to open a replica with, or to keep."""
        return self._told("state")

    def stored(self, id):
        """The text of the element that is stored of this id, or None."""
        text = self._told("stored", id=json.dumps(id))
        return None if text == "null" else text

    def lengths(self):
        """How many entries can be undone, and how many redone."""
        return tuple(json.loads(self._ask(do='"lengths"')).values())

    def pending(self):
        """Whether something that was captured later waits for the next entry."""
        return self._told("pending") == "true"

    def _step(self, do, time, **texts):
        now = int(clock.time() * 1000)
        message = self._ask(do=json.dumps(do), time=json.dumps(now if time is None else time), **texts)
        return None if message.endswith('"elements":[]}}') else message

    def _told(self, do, **texts):
        return self._ask(do=json.dumps(do), **texts).partition(":")[2][:-1]

    def _ask(self, **texts):
        """The answer to a line of these members, or what it raises."""
        line = ("{" + ",".join(f'"{name}":{text}' for name, text in texts.items()) + "}\n").encode()
        with self._lock:
            try:
                self._run.stdin.write(line)
                self._run.stdin.flush()
                answer = self._run.stdout.readline()
            except (BrokenPipeError, ValueError):  # it has ended, or was closed
                answer = b""
            except BaseException:
                self._run.stdout.close()  # else this answer would be taken for that of the next line
                raise
        if not answer.endswith(b"\n"):
            raise Ended("the program has ended")
        for start, error in ((b'{"refusal":', Refused), (b'{"fault":', Faulty), (b'{"memory":', WantOfMemory)):
            if answer.startswith(start):
                raise error(*json.loads(answer).values())
        return answer[:-1].decode()


def _text(value):
    """The text of a value; a text that is one already is checked to be JSON, and put on one line."""
    if not isinstance(value, str):
        return json.dumps(value, allow_nan=False)
    json.loads(value, parse_int=str, parse_float=str)
    return value.replace("\n", " ")
