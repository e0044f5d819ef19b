"""What `/health` says of a server whose threads go on, and of one in which a thread stands still."""
import contextlib
import ctypes
import errno
import os
import pathlib
import select
import time

from peers import LEFT_OUT, Camera, Peer, Player
from status_pages import answer, pages_of

# Requests of ptrace(2) by which one thread of a process is stopped and let on.
SEIZE, INTERRUPT, DETACH = 0x4206, 0x4207, 17

# The system call in which a thread waits for a word (futex on x86-64).
FUTEX = "202"

# After how many seconds a thread that has something to do is late, and some more.
LATE = 2.5

LIBC = ctypes.CDLL(None, use_errno=True)
LIBC.ptrace.argtypes = [ctypes.c_long, ctypes.c_long, ctypes.c_void_p, ctypes.c_void_p]


def ptrace(request, thread):
    if LIBC.ptrace(request, thread, None, None):
        raise OSError(ctypes.get_errno(), f"ptrace {request:#x} of thread {thread}")


def may_trace():
    """Whether this process may stop a thread of another one. What needs that is left out if not."""
    held = os.fork()
    if not held:
        time.sleep(60)
        os._exit(0)
    try:
        ptrace(SEIZE, held)
        return True
    except OSError as refused:
        if refused.errno != errno.EPERM:
            raise
        LEFT_OUT.append("thread_that_stands_still_is_named: no ptrace here")
        return False
    finally:
        os.kill(held, 9)
        os.waitpid(held, 0)


def waiting_for_a_word(pid):
    """The threads of a process that wait for a word, the lowest first."""
    threads = pathlib.Path(f"/proc/{pid}/task").iterdir()
    return sorted(int(thread.name) for thread in threads if (thread / "syscall").read_text().split()[0] == FUTEX)


@contextlib.contextmanager
def standing_still(threads):
    """These threads stand still meanwhile."""
    held = []
    try:
        for thread in threads:
            ptrace(SEIZE, thread)
            held.append(thread)
            ptrace(INTERRUPT, thread)
            os.waitpid(thread, 0x40000000)  # __WALL
        yield
    finally:
        for thread in held:
            ptrace(DETACH, thread)


def is_well(port):
    status, _, body = answer(port, "/health")
    return (status, body) == (200, b"well\n")


def busy_server_is_well(program):
    """A server that serves a camera and a player is well, also one whose player reads nothing for a while."""
    with pages_of(program) as (server, port), Camera(server) as camera, Player(server) as player:
        begun = time.monotonic()
        for number in range(60):
            camera.publish(range(number * 20, number * 20 + 20), 1_200)
            time.sleep(0.05)
            if number % 10 == 0 and not is_well(port):
                yield f"after {time.monotonic() - begun:.1f} s it says {answer(port, '/health')}"
        if player.numbers(5) != [0, 1, 2, 3, 4]:
            yield "the player has got other packets"


def quiet_server_is_well(program):
    """A server to which nothing comes is well, also after it has refused connections and while it reports."""
    with pages_of(program, "--per-address", "1", "--report", "1") as (server, port), Peer(server):
        for _ in range(3):
            with Peer(server) as late:
                late.is_hung_up()
        for _ in range(2):
            if not is_well(port):
                yield f"it says {answer(port, '/health')}"
            time.sleep(LATE)


def thread_that_stands_still_is_named(program):
    """The waking thread and the writer, each of which has something to do and stands still, are named after two seconds, and no more once
    they go on. Two packets come together each time, since one alone is sent at once."""
    if not may_trace():
        return
    with pages_of(program, "--writers", "1") as (server, port), Camera(server) as camera, Player(server) as player:
        camera.publish([0, 1])
        if player.numbers(2) != [0, 1]:
            yield "the player has got other packets"
        time.sleep(0.3)
        said = []
        for number, thread in enumerate(waiting_for_a_word(server.pid), 1):
            with standing_still([thread]):
                camera.publish([2 * number, 2 * number + 1])
                if not select.select([player.socket], [], [], 0.5)[0]:
                    if not is_well(port):
                        yield f"at once it says {answer(port, '/health')}"
                    time.sleep(LATE)
                    status, _, body = answer(port, "/health")
                    said.append((status, body))
            if player.numbers(2) != [2 * number, 2 * number + 1]:
                yield "the player hasn't got the packets afterwards"
            if not is_well(port):
                yield f"once it goes on it says {answer(port, '/health')}"
        if sorted(said) != [(503, b"late: waking\n"), (503, b"late: writer 0\n")]:
            yield f"it says {said}"


PARTS = [(part, ()) for part in (busy_server_is_well, quiet_server_is_well, thread_that_stands_still_is_named)]
