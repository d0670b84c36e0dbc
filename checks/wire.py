"""Frames of binkp (FTS-1026), folders and runs of the built program, for the checks here and for bench/.

A `call` dials a listener on this machine, which stands for `peer.example` in the folder's settings.
"""
import contextlib
import email.utils
import os
import re
import resource
import select
import socket
import subprocess
import sys
import threading
import time

ROOT = os.path.dirname(os.path.dirname(os.path.abspath(__file__)))
CRATE = os.path.join(ROOT, "crates", "binkp")
BUILT = os.path.join(CRATE, "out", "binkp")

# The program of bench/gate.
BENCH = os.path.join(ROOT, "crates", "bench_gate", "out", "bench_gate")

NUL, ADR, PWD, FILE, OK, EOB, GOT, ERR, BSY, GET, SKIP = range(11)

# How a session ends: the exit status, the end's name in the session's line, and the status's line.
DONE = (0, b"Finished", b"")
DROPPED = (7, b"Dropped", b"status 7 Dropped\n")
LINE_FAULT = (6, b"LineFault", b"status 6 LineFault\n")
PEER_BUSY = (10, b"PeerBusy", b"status 10 PeerBusy\n")
WRONG_PASSWORD = (11, b"BadPassword", b"status 11 BadPassword\n")


def peer_error(text):
    """The peer said M_ERR; its text is told with its escapes."""
    return 9, b"PeerError", b"status 9 PeerError %s\n" % text


def broke(cause, frame):
    """The peer's frame with that number was refused. Frames that aren't empty are counted from 1."""
    return 12, b"Broke", b"status 12 Broke %s %d\n" % (cause, frame)


HOME = b"2:5020/1042@fidonet"
PEER = b"2:5047/13@fidonet"

WORDS = ["answer"]
CALL = ["call", PEER.decode()]

# How long a session may take, in seconds.
PATIENCE = 60

# The settings of most sessions: the own address, and a node with a host and no password.
SETTINGS = b"address %s\nnode %s peer.example\n" % (HOME, PEER)
PASSWORD = b"tanstaaftanstaaf"
GUARDED = b"address %s\nnode %s peer.example %s\n" % (HOME, PEER, PASSWORD)


def command(number, argument=b""):
    """A command frame: the top bit of its header is set, the low 15 bits are the length of number and argument."""
    data = bytes([number]) + argument
    return (0x8000 | len(data)).to_bytes(2, "big") + data


def data(content):
    """A data frame."""
    return len(content).to_bytes(2, "big") + content


MOMENT = command(NUL, b"TIME Sun, 09 Sep 2001 01:46:40 +0000")
VERSION = command(NUL, b"VER binkp_mailer/1.0 binkp/1.0")
CHALLENGE = command(NUL, b"OPT CRAM-MD5-" + b"0" * 32)
GREETING = CHALLENGE + MOMENT + VERSION + command(ADR, HOME)
CALLER_GREETING = MOMENT + VERSION + command(ADR, HOME)
LOGIN = command(ADR, PEER) + command(PWD, b"-")
LET_IN = GREETING + command(OK, b"non-secure")
END = command(EOB)
BROKEN_FRAME = command(ERR, b"broken frame")
OFFSET_AGAIN = command(ERR, b"offset again")
BAD_PASSWORD = command(ERR, b"bad password")
NOT_CALLED = command(ERR, b"not the called address")
USAGE = b"status 1 Usage\nbinkp: the words are `DIR answer`, `DIR call ADDR`, `DIR serve`, `DIR lookup ADDR`, `DIR compile FILE`, `DIR list`, `DIR take` or `trial COUNT START`, as in `. call 2:5047/13`; DIR has the settings, `binkp.conf`\n"


def told(end, peer, received):
    """What stands on standard error behind a session."""
    session = b"session %d peer %s sent 0 received %d skipped 0 end %s\n" % (1 if peer else 0, peer or b"-", received, end[1])
    return session + end[2]


def offer(name, size, time, offset=b"0"):
    return command(FILE, b"%s %d %d %s" % (name, size, time, offset))


def got(name, size, time):
    return command(GOT, b"%s %d %d" % (name, size, time))


def ask(name, size, time, offset):
    return command(GET, b"%s %d %d %d" % (name, size, time, offset))


HELLO = offer(b"a.txt", 5, 1000000000)
FROM_THREE = offer(b"a.txt", 5, 1000000000, b"3")
GOT_HELLO = got(b"a.txt", 5, 1000000000)
CALL_HELLO = LOGIN + HELLO + data(b"hello") + END
HEARD_HELLO = LET_IN + GOT_HELLO + END


def in_frames(content, most=4096):
    """The content of a file in data frames of at most so many bytes."""
    for at in range(0, len(content), most):
        yield data(content[at : at + most])


def settle(folder, settings):
    """Writes the settings of a folder, where there are any."""
    if settings is not None:
        with open(os.path.join(folder, "binkp.conf"), "wb") as out:
            out.write(settings)


def program_named(built=BUILT):
    """The program that the script's first word names, or else the built one. Where it isn't there the script ends."""
    program = os.path.abspath(sys.argv[1]) if len(sys.argv) > 1 else built
    if not os.access(program, os.X_OK):
        sys.exit("%s isn't there: build it by `rt run` in crates/%s, or name one" % (program, os.path.basename(built)))
    return program


def start(program, folder, words, given=subprocess.PIPE, taken=subprocess.PIPE):
    """Starts the program over that folder."""
    return subprocess.Popen([program, folder] + words, cwd=folder, stdin=given, stdout=taken, stderr=subprocess.PIPE)


@contextlib.contextmanager
def reached(folder):
    """A listener at a free port. Meanwhile the folder's settings, where there are any, have it in place of `peer.example`."""
    path = os.path.join(folder, "binkp.conf")
    before = None
    if os.path.isfile(path):
        with open(path, "rb") as file:
            before = file.read()
    with socket.create_server(("127.0.0.1", 0)) as listener:
        port = b"%d" % listener.getsockname()[1]
        if before is not None:
            settle(folder, before.replace(b"peer.example", b"127.0.0.1:" + port))
        try:
            yield listener
        finally:
            settle(folder, before)


def accepted(listener, child):
    """The line of a child that dials; none where it ends without that."""
    until = time.monotonic() + PATIENCE
    while time.monotonic() < until:
        is_over = child.poll() is not None
        if select.select([listener], [], [], 0.02)[0]:
            return listener.accept()[0]
        if is_over:
            return None
    child.kill()
    raise subprocess.TimeoutExpired(child.args, PATIENCE)


def say(line, taken, pieces=False):
    """Says all that over a socket, and ends this way of it, as far as the other side takes it."""
    try:
        for piece in [bytes([byte]) for byte in taken] if pieces else [taken]:
            line.sendall(piece)
        line.shutdown(socket.SHUT_WR)
    except OSError:
        pass


def hear(line):
    """What comes over a socket until its end, or until the other side breaks it."""
    heard = b""
    with contextlib.suppress(ConnectionResetError):
        while piece := line.recv(65536):
            heard += piece
    return heard


def spoken(line, taken, pieces=False):
    """What comes over a socket until its end, while all that is said."""
    with line:
        line.settimeout(PATIENCE)
        speaker = threading.Thread(target=say, args=(line, taken, pieces))
        speaker.start()
        heard = hear(line)
        speaker.join()
    return heard


def called(child, listener, taken, pieces=False):
    """What a child that calls writes, none where it dials nobody, what it tells, and its exit status. What it writes to its standard
    output counts too: it has nothing to say there."""
    line = accepted(listener, child)
    given = spoken(line, taken, pieces) or b"a line, and no byte" if line else b""
    written, told = child.communicate(timeout=PATIENCE)
    return settled(given + written), told, child.returncode


def over_line(program, near, words, far):
    """Two programs, of which one calls the other: the one that calls, and the one that answers over the line that was dialled, as
    under inetd."""
    with reached(near) as listener:
        caller = start(program, near, words, subprocess.DEVNULL)
        line = accepted(listener, caller)
        if line is None:
            return caller, start(program, far, WORDS, subprocess.DEVNULL)
        with line:
            return caller, start(program, far, WORDS, line, line)


TIME = re.compile(rb"TIME (\w\w\w, \d\d \w\w\w \d\d\d\d \d\d:\d\d:\d\d \+0000)")


def settled(given):
    """What was written, with the greeting's challenge and moment as these count here; the moment is the present one."""
    given = re.sub(rb"^(\x80\x2e\0OPT CRAM-MD5-)[0-9a-f]{32}", rb"\g<1>" + b"0" * 32, given)
    found = TIME.search(given)
    if found and abs(email.utils.parsedate_to_datetime(found[1].decode()).timestamp() - time.time()) < 120:
        given = given[: found.start(1)] + b"Sun, 09 Sep 2001 01:46:40 +0000" + given[found.end(1) :]
    return given


def begun(program, folder, words, given, before=None, user=None):
    """Starts the program over that folder, beside which it stands where that isn't one. With a user it has that one's rights alone."""
    at = folder if os.path.isdir(folder) else os.path.dirname(folder)
    rights = {} if user is None else {"user": user, "group": user, "extra_groups": []}
    return subprocess.Popen([program, folder] + words, cwd=at, stdin=given, stdout=subprocess.PIPE, stderr=subprocess.PIPE, preexec_fn=before, **rights)


def run_in(program, folder, words, taken, pieces=False, before=None, user=None):
    """What the program writes on its line and on error over that folder, and its exit status: the line that it dials where it calls,
    else the standard streams. Its inbound stands in the folder."""
    if words[:1] == ["call"]:
        with reached(folder) as listener:
            return called(begun(program, folder, words, subprocess.DEVNULL, before, user), listener, taken, pieces)
    child = begun(program, folder, words, subprocess.PIPE, before, user)
    if pieces:
        try:
            for byte in taken:
                os.write(child.stdin.fileno(), bytes([byte]))
        except BrokenPipeError:
            pass
        taken = b""
    given, told = child.communicate(taken, timeout=PATIENCE)
    return settled(given), told, child.returncode


def difference(result, given, told, status):
    """What is otherwise than it should be, or an empty text."""
    faults = []
    if result[2] != status:
        faults.append("status %d, not %d" % (result[2], status))
    if given is not None and result[0] != given:
        faults.append("wrote %r, not %r" % (result[0][:200], given[:200]))
    if result[1] != told:
        faults.append("told %r, not %r" % (result[1], told))
    return "; ".join(faults)


def frames(written):
    """Frames that were written, one by one."""
    while written:
        end = 2 + (int.from_bytes(written[:2], "big") & 0x7FFF)
        yield written[:end]
        written = written[end:]


def with_end_anywhere(login, given):
    """What may be written in place of that where the peer's bytes come one at a time. A node that has nothing to send says M_EOB as soon as
    none of them waits, so its place behind the login is open; and where the peer breaks the session off, whether it came to that."""
    said = [frame for frame in frames(given[len(login) :]) if frame != END]
    return {given} | {login + b"".join(said[:at] + [END] + said[at:]) for at in range(len(said) + 1)}


def ended(status, line, reason=b""):
    """What stands on standard error where no session was held."""
    return b"status %d %s\n%s" % (status, line, reason)


def whole(folder):
    """The files of a folder and of those in it, in order, each with its path and bytes."""
    found = []
    for top, _, names in os.walk(folder):
        for name in names:
            path = os.path.join(top, name)
            with open(path, "rb") as file:
                found.append((os.path.relpath(path, folder), file.read()))
    return sorted(found)


def otherwise(folder, **wanted):
    """What a folder has otherwise than these files, beside its ledger and settings."""
    found = {path: bytes_ for path, bytes_ in whole(folder) if path not in ("binkp.conf", "ledger")}
    return "" if found == wanted else "the folder has %r" % found


def leave(folder, **files):
    """Puts files into a folder, each by its path there, with one time."""
    for path, bytes_ in files.items():
        whole_path = os.path.join(folder, path)
        os.makedirs(os.path.dirname(whole_path), exist_ok=True)
        with open(whole_path, "wb") as out:
            out.write(bytes_)
        os.utime(whole_path, (1000000000, 1000000000))


def took(peer, queued):
    return b"took %s queued %d again 0 missing 0 over 0 passed 0\n" % (peer, queued)


def processor_time(words, **how):
    """The seconds of the processor that a command takes, and what came of it."""
    before = resource.getrusage(resource.RUSAGE_CHILDREN)
    done = subprocess.run(words, stdin=subprocess.DEVNULL, capture_output=True, check=False, **how)
    after = resource.getrusage(resource.RUSAGE_CHILDREN)
    return after.ru_utime + after.ru_stime - before.ru_utime - before.ru_stime, done


# The records of a ledger (crates/ledger_rec/specs/Spelling.antt), of files of five bytes for and from the other node.
def number_bytes(number):
    return number.to_bytes(4, "big")


def file_bytes(name):
    return bytes([len(PEER)]) + PEER + bytes([len(name)]) + name + (5).to_bytes(8, "big") + (1000000000).to_bytes(8, "big")


def queue_record(number, name):
    """The file comes from no other, nothing is done with it, and its flavour is direct."""
    return b"\x01" + number_bytes(number) + file_bytes(name) + b"\x00\x00\x00\x02"


def done_record(number):
    return b"\x02" + number_bytes(number) + number_bytes(1)


def received_record(number, name):
    return b"\x03" + number_bytes(number) + file_bytes(name) + number_bytes(1) + b"\x00"


def refused_record(name):
    return b"\x04" + file_bytes(name) + number_bytes(1) + b"\x01"


def ledger_of(records):
    """The ledger of these records."""
    body = b"".join(b"\x01" + len(record).to_bytes(2, "big") + record for record in records)
    return b"binkpldg" + number_bytes(1) + number_bytes(0) + body + b"\x00"
