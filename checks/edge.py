"""Sessions at the edge to the system: rights that are missing, marks that are no files, an inbound that is the own folder, no
room, and no more open files.

Where they run as root, the program has the rights of a user who owns its folder and nothing else; what is locked away belongs to
root then.
"""
import contextlib
import fcntl
import os
import resource
import shutil
import signal
import subprocess
import tempfile

from wire import (
    CALL,
    CALLER_GREETING,
    DONE,
    DROPPED,
    END,
    ERR,
    HEARD_HELLO,
    CALL_HELLO,
    HELLO,
    LET_IN,
    LOGIN,
    OK,
    PATIENCE,
    PEER,
    SETTINGS,
    USAGE,
    ADR,
    PWD,
    WORDS,
    accepted,
    begun,
    command,
    data,
    difference,
    ended,
    got,
    leave,
    offer,
    reached,
    run_in,
    settle,
    spoken,
    told,
    took,
    whole,
)

# The user and the group without rights, as most systems have them.
NOBODY = 65534
OTHER = b"2:5047/14@fidonet"


def user():
    return NOBODY if os.geteuid() == 0 else None


def give_to(owner, path):
    if os.geteuid() == 0:
        os.chown(path, owner, owner, follow_symlinks=False)


@contextlib.contextmanager
def own_folder(settings=SETTINGS, **files):
    """A folder with settings and files that all belong to the user whose rights the program gets."""
    with tempfile.TemporaryDirectory() as folder:
        settle(folder, settings)
        leave(folder, **files)
        for top, folders, names in os.walk(folder):
            for path in [top, *(os.path.join(top, name) for name in folders + names)]:
                give_to(NOBODY, path)
        yield folder


def lock_away(path, mode):
    """Gives a path to root, with that mode for everybody else."""
    give_to(0, path)
    os.chmod(path, mode)


@contextlib.contextmanager
def for_everybody(program):
    """The program where a user without rights may start it."""
    with tempfile.TemporaryDirectory() as folder:
        os.chmod(folder, 0o755)
        copy = os.path.join(folder, "binkp")
        shutil.copyfile(program, copy)
        os.chmod(copy, 0o755)
        yield copy


def refused(call, reason, number):
    """The line of a call of the system that was refused."""
    return b"binkp: %s: %s (os error %d)\n" % (call, reason, number)


def denied(call):
    return refused(call, b"Permission denied", 13)


def told_take(peer, queued, missing):
    return b"took %s queued %d again 0 missing %d over 0 passed 0\n" % (peer, queued, missing)


def own_files(folder):
    """What stands under the names of queued files."""
    found = {}
    for name in os.listdir(folder):
        if name.startswith("out."):
            with open(os.path.join(folder, name), "rb") as file:
                found[name] = file.read()
    return found


def queued(folder, *wanted):
    """What is queued otherwise than these bytes, by their numbers."""
    found = own_files(folder)
    return "" if found == {"out.%08x" % (n + 1): it for n, it in enumerate(wanted)} else "queued %r" % found


def a_line_that_may_not_be_seen(program):
    """a line into a folder of another user is missing, and stops no other line and no other address"""
    flow = b"^locked/x\n^files/a\n"
    with own_folder(**{"outbound/13b7000d.flo": flow, "files/a": b"hello", "locked/x": b"secret", "outbound/13b7000e.cut": b"packet"}) as folder:
        lock_away(os.path.join(folder, "locked"), 0)
        lines = told_take(PEER, 1, 1) + took(OTHER, 1) + denied(b"stat")
        fault = difference(run_in(program, folder, ["take"], b"", user=user()), b"", lines, 0)
        fault = fault or queued(folder, b"hello", b"packet")
        fault = fault or ("" if not os.path.exists(os.path.join(folder, "files/a")) else "the good line's source stands")
        os.chmod(os.path.join(folder, "locked"), 0o700)
        return fault


def a_session_beside_such_a_line(program):
    """a session sends the good line of a flow file with one that may not be seen"""
    with own_folder(**{"outbound/13b7000d.flo": b"^locked/x\n^files/a\n", "files/a": b"hello", "locked/x": b"secret"}) as folder:
        lock_away(os.path.join(folder, "locked"), 0)
        # The batch ends once the other side has the file.
        sent = LET_IN + offer(b"a", 5, 1000000000) + data(b"hello")
        fault = difference(run_in(program, folder, WORDS, LOGIN + END, user=user()), sent, told(DROPPED, PEER, 0) + denied(b"stat"), 7)
        os.chmod(os.path.join(folder, "locked"), 0o700)
        return fault


def sources_that_may_not_be_changed(program):
    """a source that may not be removed, and one that may not be cut, stay and are done with"""
    with own_folder(**{"outbound/13b7000d.flo": b"^kept/a\n#kept/b\n", "kept/a": b"hello", "kept/b": b"there"}) as folder:
        lock_away(os.path.join(folder, "kept/b"), 0o444)
        lock_away(os.path.join(folder, "kept"), 0o555)
        fault = difference(run_in(program, folder, ["take"], b"", user=user()), b"", took(PEER, 2) + denied(b"open"), 0)
        fault = fault or queued(folder, b"hello", b"there")
        fault = fault or difference(run_in(program, folder, ["take"], b"", user=user()), b"", b"", 0)
        kept = [it for it in whole(folder) if it[0].startswith("kept/")]
        os.chmod(os.path.join(folder, "kept"), 0o700)
        return fault or ("" if kept == [("kept/a", b"hello"), ("kept/b", b"there")] else "the sources are %r" % kept)


def a_flow_file_that_may_not_be_written(program):
    """a flow file that another user wrote is taken in"""
    with own_folder(**{"outbound/13b7000d.flo": b"^files/a\n", "files/a": b"hello"}) as folder:
        lock_away(os.path.join(folder, "outbound/13b7000d.flo"), 0o444)
        fault = difference(run_in(program, folder, ["take"], b"", user=user()), b"", took(PEER, 1), 0)
        fault = fault or queued(folder, b"hello")
        return fault or ("" if not os.listdir(os.path.join(folder, "outbound")) else "the flow file stands")


def a_folder_of_another_node(program):
    """a point's folder that may not be listed ends no session with another node"""
    with own_folder(**{"outbound/13b7000e.pnt/00000001.out": b"packet"}) as folder:
        locked = os.path.join(folder, "outbound/13b7000e.pnt")
        lock_away(locked, 0)
        fault = difference(run_in(program, folder, WORDS, CALL_HELLO, user=user()), HEARD_HELLO, told(DONE, PEER, 1) + denied(b"readdir"), 0)
        os.chmod(locked, 0o700)
        return fault


def settings_to_be_read_alone(program):
    """settings that the program's user may read and not write are read"""
    with own_folder() as folder:
        path = os.path.join(folder, "binkp.conf")
        if os.geteuid() == 0:
            os.chown(path, 0, NOBODY)
        os.chmod(path, 0o640 if os.geteuid() == 0 else 0o400)
        return difference(run_in(program, folder, ["list"], b"", user=user()), b"", b"live 0 parts 0 received 0 refused 0\n", 0)


def marks_that_are_no_files(program):
    """a folder, and a link to nothing, under a mark's path are a mark, and stop no other address"""
    lines = b"marked %s\n" % PEER + took(OTHER, 1) + b"status 14 Marked 13b7000d.bsy\n"
    for kind in ("folder", "link"):
        with own_folder(**{"outbound/13b7000d.cut": b"packet", "outbound/13b7000e.cut": b"another"}) as folder:
            mark = os.path.join(folder, "outbound/13b7000d.bsy")
            if kind == "folder":
                os.mkdir(mark)
            else:
                os.symlink("nowhere", mark)
            fault = difference(run_in(program, folder, ["take"], b"", user=user()), b"", lines, 14)
            fault = fault or queued(folder, b"another")
            if fault:
                return "%s: %s" % (kind, fault)
    return ""


def call_marks_that_are_no_files(program):
    """a folder, and a link to nothing, under a call mark's path are a mark, and nobody is dialled"""
    for kind in ("folder", "link"):
        with own_folder(**{"outbound/13b7000d.cut": b"packet"}) as folder:
            mark = os.path.join(folder, "outbound/13b7000d.csy")
            if kind == "folder":
                os.mkdir(mark)
            else:
                os.symlink("nowhere", mark)
            fault = difference(run_in(program, folder, CALL, b"", user=user()), b"", ended(14, b"Marked 13b7000d.csy"), 14)
            fault = fault or ("" if os.path.lexists(mark) else "the mark is gone")
            if fault:
                return "%s: %s" % (kind, fault)
    return ""


def a_call_mark_that_may_not_be_made(program):
    """where the mark of a node may not be made nobody is dialled, and the next call goes on"""
    left = {"outbound/13b7000d.cut": b"packet"}
    with own_folder(**left) as folder:
        lock_away(os.path.join(folder, "outbound"), 0o555)
        fault = difference(run_in(program, folder, CALL, b"", user=user()), b"", ended(3, b"DiskFault 1", denied(b"link")), 3)
        os.chmod(os.path.join(folder, "outbound"), 0o777)
        fault = fault or difference(run_in(program, folder, CALL, b"", user=user()), CALLER_GREETING, told(DROPPED, b"", 0), 7)
        kept = [it for it in whole(folder) if it[0] not in ("binkp.conf", "ledger")]
        return fault or ("" if kept == [*left.items()] else "the folder has %r" % kept)


def a_call_mark_that_may_not_be_taken_away(program):
    """where the mark of a node may not be taken away behind its session that is told, and the next call does it"""
    with own_folder() as folder:
        with reached(folder) as listener:
            child = begun(program, folder, CALL, subprocess.DEVNULL, user=user())
            line = accepted(listener, child)
            if line is None:
                return "nobody was dialled"
            lock_away(os.path.join(folder, "outbound"), 0o555)
            spoken(line, command(ADR, PEER) + command(OK, b"non-secure") + HELLO + data(b"hello") + END)
        failed = told(DONE, PEER, 1) + ended(3, b"DiskFault 1", denied(b"unlink"))
        fault = difference((b"", child.communicate(timeout=PATIENCE)[1], child.returncode), b"", failed, 3)
        os.chmod(os.path.join(folder, "outbound"), 0o777)
        fault = fault or difference(run_in(program, folder, CALL, b"", user=user()), CALLER_GREETING, told(DROPPED, b"", 0), 7)
        kept = [it for it in whole(folder) if it[0] not in ("binkp.conf", "ledger")]
        return fault or ("" if kept == [("inbound/a.txt", b"hello")] else "the folder has %r" % kept)


def an_inbound_that_is_the_own_folder(program):
    """where the inbound is the own folder, however it is spelled, a peer's file waits and becomes no file of the folder"""
    planted = b"t00000009-0002270f00010000.flo"
    for inbound in (b".", b"files/.."):
        settings = SETTINGS + b"inbound %s\ninbound-nonsecure %s\n" % (inbound, inbound)
        with own_folder(settings, **{"files/private": b"secret"}) as folder:
            line = b"^files/private\n"
            said = LOGIN + offer(planted, len(line), 7) + data(line) + END
            heard = LET_IN + got(planted, len(line), 7) + END
            fault = difference(run_in(program, folder, WORDS, said, user=user()), heard, told(DONE, PEER, 1), 0)
            thief = command(ADR, b"2:9999/1@fidonet") + command(PWD, b"-") + END
            fault = fault or difference(run_in(program, folder, WORDS, thief, user=user()), LET_IN + END, told(DONE, b"2:9999/1@fidonet", 0), 0)
            found = {path for path, _ in whole(folder)}
            fault = fault or ("" if found == {"binkp.conf", "ledger", "in.00000001", "files/private"} else "the folder has %r" % found)
            if fault:
                return "%s: %s" % (inbound.decode(), fault)
    return ""


def a_folder_that_may_not_be_opened(program):
    """a folder that can't be opened isn't locked, so nothing is done"""
    with own_folder() as folder:
        lock_away(folder, 0o311)
        fault = difference(run_in(program, folder, WORDS, CALL_HELLO, user=user()), b"", b"binkp: the folder can't be locked: Permission denied (os error 13)\n", 101)
        os.chmod(folder, 0o700)
        return fault or ("" if os.listdir(folder) == ["binkp.conf"] else "something was made")


# What lets the program open nothing once the system has loaded it with its libraries, which it opens too.
NO_FILES = b"""
#include <sys/resource.h>
__attribute__((constructor)) static void limit(void)
{
    struct rlimit three = {3, 3};
    setrlimit(RLIMIT_NOFILE, &three);
}
"""


def no_more_open_files(program):
    """where no file can be opened any more nothing is done"""
    with own_folder() as folder, tempfile.TemporaryDirectory() as beside:
        limit = os.path.join(beside, "limit.so")
        subprocess.run(["cc", "-shared", "-fPIC", "-x", "c", "-o", limit, "-"], input=NO_FILES, check=True)
        child = subprocess.run([program, folder, "answer"], cwd=folder, env={**os.environ, "LD_PRELOAD": limit}, input=CALL_HELLO, capture_output=True, timeout=60)
        fault = difference((child.stdout, child.stderr, child.returncode), b"", b"binkp: the folder can't be locked: Too many open files (os error 24)\n", 101)
        return fault or ("" if os.listdir(folder) == ["binkp.conf"] else "something was made")


def short_files():
    """No file may grow over 64 KiB, and a write that would is refused, as on a full disk."""
    signal.signal(signal.SIGXFSZ, signal.SIG_IGN)
    resource.setrlimit(resource.RLIMIT_FSIZE, (65536, 65536))


def no_room(program):
    """where no room is left a session ends, and the file comes whole in the next one"""
    content = bytes(n % 251 for n in range(100000))
    pieces = b"".join(data(content[n : n + 4096]) for n in range(0, len(content), 4096))
    with own_folder() as folder:
        said = LOGIN + offer(b"big", len(content), 7) + pieces + END
        fault_line = b"session 1 peer %s sent 0 received 0 skipped 0 end DiskFault\nstatus 3 DiskFault 1\n" % PEER + refused(b"write", b"File too large", 27)
        fault = difference(run_in(program, folder, WORDS, said, before=short_files, user=user()), LET_IN + command(ERR, b"disk fault"), fault_line, 3)
        again = LET_IN + got(b"big", len(content), 7) + END
        fault = fault or difference(run_in(program, folder, WORDS, said, user=user()), again, told(DONE, PEER, 1), 0)
        if fault:
            return fault
        with open(os.path.join(folder, "inbound", "big"), "rb") as file:
            return "" if file.read() == content else "the file is another"


def no_folder_beside_another_program(program):
    """without a folder no words are read and nothing is locked, beside a program that works on the one it runs in, too"""
    with own_folder() as folder:
        held = os.open(folder, os.O_RDONLY)
        try:
            fcntl.flock(held, fcntl.LOCK_EX)
            child = subprocess.run([program], cwd=folder, input=CALL_HELLO, capture_output=True, timeout=60)
        finally:
            os.close(held)
        fault = difference((child.stdout, child.stderr, child.returncode), b"", USAGE, 1)
        return fault or ("" if os.listdir(folder) == ["binkp.conf"] else "something was made")


CASES = [
    a_line_that_may_not_be_seen,
    a_session_beside_such_a_line,
    sources_that_may_not_be_changed,
    a_flow_file_that_may_not_be_written,
    a_folder_of_another_node,
    settings_to_be_read_alone,
    marks_that_are_no_files,
    call_marks_that_are_no_files,
    a_call_mark_that_may_not_be_made,
    a_call_mark_that_may_not_be_taken_away,
    an_inbound_that_is_the_own_folder,
    a_folder_that_may_not_be_opened,
    no_more_open_files,
    no_room,
    no_folder_beside_another_program,
]


def results(program):
    """The cases' names, each with what went otherwise."""
    with for_everybody(program) as copy:
        return [(case.__doc__, case(copy)) for case in CASES]
