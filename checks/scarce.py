"""Daemons that lack room or a right: a disk that is full, as a peer sends and as the outbound is taken in, and a file that may not be
read.

A full disk is a file system in memory, where one may be mounted, or else a limit on the size of a file.
"""
import contextlib
import os
import subprocess
import tempfile

from daemons import FAR, NEAR, WITHIN, Node, free_ports, line_to, until
from edge import NOBODY, denied, for_everybody, give_to, lock_away, user
from wire import (
    ADR,
    END,
    ERR,
    GREETING,
    OK,
    PATIENCE,
    PEER,
    PWD,
    command,
    difference,
    got,
    in_frames,
    offer,
    run_in,
    settled,
    spoken,
)

LOGIN = command(ADR, PEER) + command(PWD, b"secret")
LET_IN = GREETING + command(OK, b"secure")
SESSION = b"session %d peer %s sent 0 received %d skipped 0 end %s\n"
TIME = 1000000000

# Two files that a disk of one MiB has room for, and one that it has none for.
FIRST, SECOND, LARGE = (b"first.zip", b"1" * 5000), (b"second.zip", b"2" * 70000), (b"large.zip", bytes(range(251)) * 12000)
GOOD, NEXT, BACK = ("good.zip", b"good" * 5000), ("next.zip", b"next"), ("back.zip", b"")

# Ends what is started behind it at a file of one MiB, with a write that is refused, as on a full disk.
LIMITED = ["bash", "-c", "trap '' XFSZ; ulimit -f 1024; exec \"$@\"", "limited"]


class SmallDisk:
    """A folder with room for one MiB, or one where the program is started so that none of its files grows over that."""

    def __init__(self, folder):
        self.folder = folder
        os.mkdir(folder, 0o700)
        self.is_mounted = self.mount("-t", "tmpfs", "-o", "size=1m,mode=700", "tmpfs")
        self.before = [] if self.is_mounted else LIMITED
        self.reason = b"No space left on device (os error 28)" if self.is_mounted else b"File too large (os error 27)"

    def mount(self, *words):
        with contextlib.suppress(FileNotFoundError):
            return subprocess.run(["mount", *words, self.folder], stdin=subprocess.DEVNULL, capture_output=True, check=False).returncode == 0
        return False

    def make_room(self):
        """Whether there is room from now on, for what is started."""
        self.before = []
        return not self.is_mounted or self.mount("-o", "remount,size=64m")

    def close(self):
        if self.is_mounted:
            subprocess.run(["umount", self.folder], check=True)


@contextlib.contextmanager
def on_a_small_disk(program):
    """A daemon on a small disk, and that disk; its sources and what it tells stand elsewhere."""
    with tempfile.TemporaryDirectory() as top, contextlib.closing(SmallDisk(os.path.join(top, "disk"))) as disk:
        node = Node(program, disk.folder, "full", NEAR, FAR, beside=top)
        node.settle(*free_ports(3))
        try:
            yield node, disk
        finally:
            if node.is_running():
                node.kill()


def told_full(disk):
    return b"status 3 DiskFault 1\nbinkp: write: %s\n" % disk.reason


def heard_of(node, *files):
    """What a daemon says to a peer that has these files."""
    taken = b"".join(offer(name, len(content), TIME) + b"".join(in_frames(content)) for name, content in files)
    return settled(spoken(line_to(node.port), LOGIN + taken + END))


def has_them(*files):
    """What it has to say to the last of these."""
    return b"".join(got(name, len(content), TIME) for name, content in files)


def stand_once(node, *files):
    """What of these doesn't stand once and whole, in the folder or in the inbound, or an empty text."""
    contents = list(node.found().values())
    for name in os.listdir(node.folder):
        if name.startswith("in."):
            with open(os.path.join(node.folder, name), "rb") as file:
                contents.append(file.read())
    return "".join("%s stands %d times; " % (name.decode(), contents.count(content)) for name, content in files if contents.count(content) != 1)


def a_peer_fills_the_disk(program):
    """a peer's file finds no room"""
    with on_a_small_disk(program) as (node, disk):
        node.start(before=disk.before)
        if heard_of(node, FIRST) != LET_IN + has_them(FIRST) + END:
            return "the first file isn't acknowledged"
        heard = heard_of(node, SECOND, LARGE)
        status = node.ended()
        wanted = SESSION % (1, PEER, 1, b"Finished") + SESSION % (2, PEER, 1, b"DiskFault") + told_full(disk)
        fault = difference((heard, node.told(), status), LET_IN + has_them(SECOND) + command(ERR, b"disk fault"), wanted, 3)
        fault = fault or stand_once(node, FIRST, SECOND)
        fault = fault or ("" if disk.make_room() else "no room can be made")
        if fault:
            return fault
        node.start()
        if heard_of(node, FIRST, SECOND, LARGE) != LET_IN + has_them(FIRST, SECOND, LARGE) + END:
            return "with room the files aren't acknowledged"
        files = {name.decode(): content for name, content in (FIRST, SECOND, LARGE)}
        if not until(PATIENCE, lambda: node.found() == files):
            return "the inbound has %s" % sorted(node.found())
        status = node.stop()
        return stand_once(node, FIRST, SECOND, LARGE) or difference((b"", node.told(), status), b"", wanted + SESSION % (1, PEER, 1, b"Finished"), 0)


def a_take_in_fills_the_disk(program):
    """a file of the outbound finds no room"""
    name, content = LARGE[0].decode(), LARGE[1]
    with on_a_small_disk(program) as (node, disk):
        source = node.leave(name, content)
        os.utime(source, (TIME, TIME))
        node.name_in_flow([source], ".flo")
        node.start(before=disk.before)
        status = node.ended()
        fault = difference((b"", node.told(), status), b"", told_full(disk), 3)
        with open(source, "rb") as file:
            fault = fault or ("" if file.read() == content else "the source is another")
        fault = fault or ("" if disk.make_room() else "no room can be made")
        if fault:
            return fault
        node.start()
        if not until(PATIENCE, lambda: not os.path.exists(source)):
            return "with room the source stays"
        status = node.stop()
        listed = b"1 %s normal %d %d %s\nlive 1 parts 0 received 0 refused 0\n" % (PEER, len(content), TIME, LARGE[0])
        fault = "status %s" % status if status != 0 else difference(run_in(program, node.folder, ["list"], b""), b"", listed, 0)
        with open(os.path.join(node.folder, "out.00000001"), "rb") as file:
            return fault or ("" if file.read() == content else "the copy is another")


def carries(near, far):
    """What becomes of a line that may not be read, of the one beside it, and of what comes behind both, or an empty text."""
    locked = near.leave("locked.zip", b"locked away")
    lock_away(locked, 0)
    near.start(user=user())
    far.start()
    near.name_in_flow([locked, near.leave(*GOOD)], ".flo")
    passed_over = b"took %s queued 1 again 0 missing 1 over 0 passed 0\n" % PEER
    if not until(WITHIN, lambda: passed_over in near.told() and far.found() == dict([GOOD])):
        return "told %r, and the other has %s" % (near.told(), sorted(far.found()))
    # The other one hasn't dialled yet, so it needn't wait for its second call.
    near.name_in_flow([near.leave(*NEXT)], ".flo")
    far.name_in_flow([far.leave(*BACK)], ".flo")
    if not until(WITHIN, lambda: near.found() == dict([BACK]) and far.found() == dict([GOOD, NEXT])):
        return "behind it one has %s, and the other %s" % (sorted(near.found()), sorted(far.found()))
    statuses = near.stop(), far.stop()
    if statuses != (0, 0) or not near.told().endswith(denied(b"open")):
        return "statuses %s %s, and told %r" % (*statuses, near.told())
    os.chmod(locked, 0o600)
    with open(locked, "rb") as file:
        return "" if file.read() == b"locked away" and os.listdir(near.files) == ["locked.zip"] else "its sources are %s" % os.listdir(near.files)


def a_file_that_may_not_be_read(program):
    """a file of the outbound may not be read"""
    with tempfile.TemporaryDirectory() as top, for_everybody(program) as copy:
        os.chmod(top, 0o755)
        near, far = Node(copy, top, "near", NEAR, FAR), Node(program, top, "far", FAR, NEAR)
        here, there, gone = free_ports(3)
        near.settle(here, there, gone)
        far.settle(there, here, gone)
        os.mkdir(near.inbound)
        for path in (near.folder, near.outbound, near.inbound, near.files):
            give_to(NOBODY, path)
        give_to(NOBODY, os.path.join(near.folder, "binkp.conf"))
        try:
            return carries(near, far)
        finally:
            for node in (near, far):
                if node.is_running():
                    node.kill()


CASES = [a_peer_fills_the_disk, a_take_in_fills_the_disk, a_file_that_may_not_be_read]
