"""A copy of the built program that serves, for the checks here: its folders, its outbound, and what was sent from it."""
import contextlib
import os
import socket
import subprocess
import time

import wire

NEAR, FAR, GONE = "2:5020/1042", "2:5047/13", "2:5047/14"
FLOWS = {NEAR: "139c0412", FAR: "13b7000d", GONE: "13b7000e"}
# How long a flow file may wait, in seconds: a take-in comes each 60, and the next caller is waited for at most five.
WITHIN = 75

SETTINGS = "domain fidonet %s 2\naddress %s@fidonet\ninbound %s\nrequest-folder %s\niport %d\nnode %s@fidonet 127.0.0.1:%d secret\nnode %s@fidonet 127.0.0.1:%d\n"


def free_ports(many):
    """Ports that nobody listens on."""
    with contextlib.ExitStack() as held:
        ends = [held.enter_context(socket.create_server(("127.0.0.1", 0))) for _ in range(many)]
        return [end.getsockname()[1] for end in ends]


def until(seconds, is_so):
    """Whether that is so within so many seconds."""
    end = time.monotonic() + seconds
    while time.monotonic() < end:
        if is_so():
            return True
        time.sleep(0.2)
    return is_so()


def line_to(port):
    """A line to a daemon that may have been started just now."""
    end = time.monotonic() + wire.PATIENCE
    while True:
        try:
            return socket.create_connection(("127.0.0.1", port), timeout=wire.PATIENCE)
        except ConnectionRefusedError:
            if time.monotonic() > end:
                raise
            time.sleep(0.1)


class Node:
    """A daemon, its folders, and what was sent from it."""

    def __init__(self, program, top, name, address, other, beside=None):
        """Its files and what it tells stand in `beside`, where that is named, and all else in `top`."""
        self.program, self.name, self.other = program, name, other
        self.folder, self.outbound, self.inbound, self.shared = (os.path.join(top, name + end) for end in ("", ".out", ".in", ".share"))
        self.files, self.error = (os.path.join(beside or top, name + end) for end in (".files", ".told"))
        for path in (self.folder, self.outbound, self.shared, self.files):
            os.mkdir(path, 0o700)
        self.address, self.port, self.sent, self.child = address, 0, {}, None

    def settle(self, port, other_port, gone_port):
        self.port = port
        wire.settle(self.folder, (SETTINGS % (self.outbound, self.address, self.inbound, self.shared, port, self.other, other_port, GONE, gone_port)).encode())

    def start(self, user=None, before=()):
        """Starts it, with the rights of a user alone where one is named, by a command before its own where there is one."""
        rights = {} if user is None else {"user": user, "group": user, "extra_groups": []}
        with open(self.error, "ab") as told:
            words = [*before, self.program, self.folder, "serve"]
            self.child = subprocess.Popen(words, cwd=self.folder, stdin=subprocess.DEVNULL, stdout=subprocess.DEVNULL, stderr=told, **rights)

    def is_running(self):
        return self.child is not None and self.child.poll() is None

    def kill(self):
        """Whether it was running until then."""
        was_running = self.is_running()
        self.child.kill()
        self.child.wait()
        return was_running

    def ended(self):
        """Its status, once it ends by itself."""
        with contextlib.suppress(subprocess.TimeoutExpired):
            return self.child.wait(timeout=wire.PATIENCE)
        return None

    def stop(self):
        """Its status, once it is told to stop. One that has just been started takes the file for an old one, and is told again."""
        for _ in range(4):
            with open(os.path.join(self.folder, "stop"), "wb"):
                pass
            with contextlib.suppress(subprocess.TimeoutExpired):
                return self.child.wait(timeout=wire.PATIENCE / 4)
        self.child.kill()
        return None

    def told(self):
        with open(self.error, "rb") as told:
            return told.read()

    def send(self, chance, to=None):
        """A new file, and a line of a flow file that names it, under the tosser's mark."""
        name = "%s%03d.%s" % (self.name, len(self.sent), "zip" if to is None else "gone")
        content = chance.randbytes(chance.choice((0, 1, 700, 5000, 90000, 400000)))
        path = self.leave(name, content)
        self.name_in_flow([path], chance.choice((".flo", ".clo", ".ilo")), to)
        if to is None:
            self.sent[name] = content
        return name

    def ask(self, other, chance):
        """A request, under the tosser's mark, for a new file of the other node's shared folder."""
        name, request = other.name + ".asked", FLOWS[self.other] + ".req"
        other.sent[name], self.sent[request] = chance.randbytes(90000), name.encode()
        with open(os.path.join(other.shared, name), "wb") as out:
            out.write(other.sent[name])
        with self.marked(self.other) as base, open(base + ".req", "wb") as out:
            out.write(self.sent[request])

    def leave(self, name, content):
        path = os.path.join(self.files, name)
        with open(path, "wb") as out:
            out.write(content)
        return path

    @contextlib.contextmanager
    def marked(self, to):
        """The path of the outbound of a node without its ending, while it has the tosser's mark."""
        base = os.path.join(self.outbound, FLOWS[to])
        while True:
            try:
                os.close(os.open(base + ".bsy", os.O_CREAT | os.O_EXCL | os.O_WRONLY))
                break
            except FileExistsError:
                time.sleep(0.002)
        yield base
        os.remove(base + ".bsy")

    def name_in_flow(self, paths, ending, to=None):
        """Adds lines of files to be sent and removed to a flow file, under the tosser's mark."""
        with self.marked(to or self.other) as base, open(base + ending, "a", encoding="ascii") as flow:
            flow.write("".join("^%s\n" % path for path in paths))

    def found(self):
        """What stands in its inbound."""
        found = {}
        with contextlib.suppress(FileNotFoundError):
            for name in os.listdir(self.inbound):
                with open(os.path.join(self.inbound, name), "rb") as file:
                    found[name] = file.read()
        return found

    def lacks(self, sent):
        """What doesn't stand whole in its inbound of these, and what stands there beside them."""
        found = self.found()
        return sorted(name for name in sent if found.get(name) != sent[name]), sorted(name for name in found if name not in sent)
