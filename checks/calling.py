"""Calls over TCP: the mark of the node that is called (FTS-5005), hosts that aren't reached, and peers that break the line."""
import os
import re
import socket
import struct
import subprocess
import tempfile

from wire import (
    ADR,
    CALL,
    CALLER_GREETING,
    DONE,
    DROPPED,
    END,
    GOT_HELLO,
    HELLO,
    HOME,
    LINE_FAULT,
    OK,
    PATIENCE,
    PEER,
    PWD,
    SETTINGS,
    accepted,
    begun,
    called,
    command,
    data,
    difference,
    ended,
    leave,
    otherwise,
    reached,
    run_in,
    settle,
    settled,
    spoken,
    told,
    whole,
)

MARK = "outbound/13b7000d.csy"
NOTE = "m000213b7000d0000.csy"
OURS = {MARK: b"binkp %s\n" % HOME, NOTE: MARK.encode()}

# What waits for the node.
WAITING = {"outbound/13b7000d.flo": b"^files/a\n", "files/a": b"hello"}

ANSWERED = command(ADR, PEER) + command(OK, b"non-secure")
HEARD = CALLER_GREETING + command(PWD, b"-")


def no_line(host, port, reason):
    """What stands on standard error where a host isn't reached."""
    return b"binkp: %s port %d: %s\nstatus 6 LineFault\n" % (host, port, reason)


def calls(program, folder, **how):
    return begun(program, folder, CALL, subprocess.DEVNULL, **how)


def a_mark_of_another_program(program):
    """where another program's mark stands nobody is dialled, and the mark stays"""
    for text in (b"", b"another 2:5020/1042@fidonet\n"):
        with tempfile.TemporaryDirectory() as folder:
            settle(folder, SETTINGS)
            left = {MARK: text, **WAITING}
            leave(folder, **left)
            fault = difference(run_in(program, folder, CALL, ANSWERED + END), b"", ended(14, b"Marked 13b7000d.csy"), 14)
            fault = fault or otherwise(folder, **left)
            os.remove(os.path.join(folder, MARK))
            os.remove(os.path.join(folder, "outbound/13b7000d.flo"))
            fault = fault or difference(run_in(program, folder, CALL, ANSWERED + END), HEARD + END, told(DONE, PEER, 0), 0)
            if fault:
                return "%r: %s" % (text, fault)
    return ""


def marks_of_others(program):
    """no mark of another node stops a call"""
    with tempfile.TemporaryDirectory() as folder:
        settle(folder, SETTINGS)
        left = {"outbound/13b7000e.csy": b"", "outbound.02e/13b7000d.csy": b"", "outbound/13b7000d.pnt/00000001.csy": b""}
        leave(folder, **left)
        return difference(run_in(program, folder, CALL, ANSWERED + END), HEARD + END, told(DONE, PEER, 0), 0) or otherwise(folder, **left)


def a_busy_mark_of_another_program(program):
    """where another program's busy mark stands the node is called, and what waits for it stays"""
    with tempfile.TemporaryDirectory() as folder:
        settle(folder, SETTINGS)
        left = {"outbound/13b7000d.bsy": b"", **WAITING}
        leave(folder, **left)
        return difference(run_in(program, folder, CALL, ANSWERED + END), HEARD + END, told(DONE, PEER, 0), 0) or otherwise(folder, **left)


def the_own_mark(program):
    """the own mark and its note stand while a node is called, as the lock does, and go behind the session"""
    with tempfile.TemporaryDirectory() as folder:
        settle(folder, SETTINGS)
        with reached(folder) as listener:
            child = calls(program, folder)
            line = accepted(listener, child)
            fault = otherwise(folder, **OURS)
            fault = fault or difference(run_in(program, folder, ["list"], b""), b"", b"binkp: another program works on the folder\n", 101)
            given = spoken(line, ANSWERED + END) if line else b""
        error = child.communicate(timeout=PATIENCE)[1]
        fault = fault or difference((settled(given), error, child.returncode), HEARD + END, told(DONE, PEER, 0), 0)
        return fault or otherwise(folder)


def a_mark_that_was_replaced(program):
    """a mark that another program put in the own one's place meanwhile stays"""
    with tempfile.TemporaryDirectory() as folder:
        settle(folder, SETTINGS)
        with reached(folder) as listener:
            child = calls(program, folder)
            line = accepted(listener, child)
            if line is None:
                return "nobody was dialled"
            os.remove(os.path.join(folder, MARK))
            leave(folder, **{MARK: b"another\n"})
            given = spoken(line, ANSWERED + END)
        error = child.communicate(timeout=PATIENCE)[1]
        fault = difference((settled(given), error, child.returncode), HEARD + END, told(DONE, PEER, 0), 0)
        return fault or otherwise(folder, **{MARK: b"another\n"})


def a_mark_that_a_kill_left(program):
    """the own mark that a killed call left goes at the next call, and stops it not"""
    with tempfile.TemporaryDirectory() as folder:
        settle(folder, SETTINGS)
        with reached(folder) as listener:
            child = calls(program, folder)
            line = accepted(listener, child)
            child.kill()
            child.communicate()
            if line:
                line.close()
        fault = otherwise(folder, **OURS)
        fault = fault or difference(run_in(program, folder, CALL, ANSWERED + END), HEARD + END, told(DONE, PEER, 0), 0)
        return fault or otherwise(folder)


def a_host_that_refuses(program):
    """a host that refuses is told with its port and the reason, and what waits for the node stays"""
    with tempfile.TemporaryDirectory() as folder, socket.socket() as deaf:
        deaf.bind(("127.0.0.1", 0))
        port = deaf.getsockname()[1]
        settle(folder, SETTINGS.replace(b"peer.example", b"127.0.0.1:%d" % port))
        leave(folder, **WAITING)
        fault = difference(run_in(program, folder, CALL, b""), b"", no_line(b"127.0.0.1", port, b"Connection refused (os error 111)"), 6)
        return fault or otherwise(folder, **WAITING)


def a_host_by_its_name(program):
    """a host is called by its name, at whichever of its addresses listens"""
    with tempfile.TemporaryDirectory() as folder, socket.create_server(("127.0.0.1", 0)) as listener:
        settle(folder, SETTINGS.replace(b"peer.example", b"localhost:%d" % listener.getsockname()[1]))
        return difference(called(calls(program, folder), listener, ANSWERED + END), HEARD + END, told(DONE, PEER, 0), 0) or otherwise(folder)


def a_host_without_an_address(program):
    """a host that has no address is told, with the port of binkp"""
    with tempfile.TemporaryDirectory() as folder:
        settle(folder, SETTINGS.replace(b"peer.example", b"nosuch.invalid"))
        given, error, status = run_in(program, folder, CALL, b"")
        # The reason is the resolver's.
        error = re.sub(rb"24554: .+\n", b"24554: REASON\n", error, count=1)
        fault = difference((given, error, status), b"", no_line(b"nosuch.invalid", 24554, b"REASON"), 6)
        return fault or otherwise(folder)


def broken_by(program, end_line, *ends):
    """What is otherwise where a peer ends the line so, than that the session has one of these ends."""
    with tempfile.TemporaryDirectory() as folder:
        settle(folder, SETTINGS)
        with reached(folder) as listener:
            child = calls(program, folder)
            line = accepted(listener, child)
            if line is None:
                return "nobody was dialled"
            end_line(line)
        error = child.communicate(timeout=PATIENCE)[1]
        faults = [difference((b"", error, child.returncode), b"", told(end, None, 0), end[0]) for end in ends]
        return (faults[0] if all(faults) else "") or otherwise(folder)


def hear_greeting(line):
    """All that the caller says first."""
    line.settimeout(PATIENCE)
    heard = b""
    while len(heard) < len(CALLER_GREETING):
        heard += line.recv(len(CALLER_GREETING) - len(heard))


def close_behind_greeting(line):
    hear_greeting(line)
    line.close()


def reset(line):
    """Breaks the line as a machine does that knows nothing of it."""
    hear_greeting(line)
    line.setsockopt(socket.SOL_SOCKET, socket.SO_LINGER, struct.pack("ii", 1, 0))
    line.close()


def a_peer_that_closes(program):
    """a peer that closes behind the greeting"""
    return broken_by(program, close_behind_greeting, DROPPED)


def a_peer_that_closes_at_once(program):
    """a peer that closes at once, where the system may tell its end or that the greeting came too late"""
    return broken_by(program, socket.socket.close, DROPPED, LINE_FAULT)


def a_peer_that_resets(program):
    """a peer that resets the line"""
    return broken_by(program, reset, LINE_FAULT)


def close_streams():
    os.close(0)
    os.close(1)


def close_all_streams():
    close_streams()
    os.close(2)


def closed_streams(program):
    """a call whose standard input and output are closed"""
    with tempfile.TemporaryDirectory() as folder:
        settle(folder, SETTINGS)
        with reached(folder) as listener:
            result = called(calls(program, folder, before=close_streams), listener, ANSWERED + HELLO + data(b"hello") + END)
        return difference(result, HEARD + GOT_HELLO + END, told(DONE, PEER, 1), 0) or otherwise(folder, **{"inbound/a.txt": b"hello"})


def all_streams_closed(program):
    """where standard error is closed too nothing is told, and nothing of it stands in the folder's files in its place"""
    with tempfile.TemporaryDirectory() as folder, tempfile.TemporaryDirectory() as other:
        for path, before, status, told_there in ((folder, close_all_streams, 16, b""), (other, None, 0, told(DONE, PEER, 1))):
            settle(path, SETTINGS)
            with reached(path) as listener:
                result = called(calls(program, path, before=before), listener, ANSWERED + HELLO + data(b"hello") + END)
            fault = difference(result, HEARD + GOT_HELLO + END, told_there, status)
            if fault:
                return fault
        return "" if whole(folder) == whole(other) else "the folder has %r, not %r" % (whole(folder), whole(other))


CASES = [
    a_mark_of_another_program,
    marks_of_others,
    a_busy_mark_of_another_program,
    the_own_mark,
    a_mark_that_was_replaced,
    a_mark_that_a_kill_left,
    a_host_that_refuses,
    a_host_by_its_name,
    a_host_without_an_address,
    a_peer_that_closes,
    a_peer_that_closes_at_once,
    a_peer_that_resets,
    closed_streams,
    all_streams_closed,
]


def results(program):
    """The cases' names, each with what went otherwise."""
    return [(case.__doc__, case(program)) for case in CASES]
