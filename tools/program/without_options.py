"""Runs a command whose system refuses TCP_USER_TIMEOUT, as one does that has no such option: `without_options.py COMMAND ..`.

A filter for its system calls has setsockopt fail with ENOPROTOOPT for that option (seccomp(2)). The command isn't run, and the status is 1,
if the system grants no filter."""
import ctypes
import errno
import os
import platform
import socket
import struct
import sys

# By machine: AUDIT_ARCH_* of <linux/audit.h>, and the number of setsockopt.
MACHINES = {"x86_64": (0xC000003E, 54), "aarch64": (0xC00000B7, 208)}

# prctl(2): PR_SET_NO_NEW_PRIVS, PR_SET_SECCOMP and SECCOMP_MODE_FILTER.
NO_NEW_PRIVILEGES, FILTER, BY_PROGRAM = 38, 22, 2

# Instructions of <linux/bpf_common.h>: loads a word of struct seccomp_data, jumps if it is equal, returns. What is returned.
LOAD, JUMP, RETURN = 0x20, 0x15, 0x06
ALLOW, ERROR = 0x7FFF0000, 0x00050000

# Offsets in struct seccomp_data: the call's number, its machine, and the low words of its second and third arguments.
NUMBER, MACHINE, LEVEL, OPTION = 0, 4, 24, 32


def program(machine, number):
    """The filter: each word has a value, or the call is allowed."""
    due = (MACHINE, machine), (NUMBER, number), (LEVEL, socket.IPPROTO_TCP), (OPTION, socket.TCP_USER_TIMEOUT)
    steps, count = [], 2 * len(due)
    for offset, value in due:
        steps.append(struct.pack("=HBBI", LOAD, 0, 0, offset))
        steps.append(struct.pack("=HBBI", JUMP, 0, count - len(steps), value))
    steps += [struct.pack("=HBBI", RETURN, 0, 0, it) for it in (ERROR | errno.ENOPROTOOPT, ALLOW)]
    return b"".join(steps)


def has_filter(text):
    """Sets the filter for this process and those that it becomes. Whether the system grants it."""
    steps = ctypes.create_string_buffer(text)
    whole = ctypes.create_string_buffer(struct.pack("@HP", len(text) // 8, ctypes.addressof(steps)))
    libc = ctypes.CDLL(None, use_errno=True)
    libc.prctl.argtypes = [ctypes.c_int, *[ctypes.c_ulong] * 4]
    calls = (NO_NEW_PRIVILEGES, 1, 0), (FILTER, BY_PROGRAM, ctypes.addressof(whole))
    return all(libc.prctl(option, first, second, 0, 0) == 0 for option, first, second in calls)


if __name__ == "__main__":
    if platform.machine() not in MACHINES or not has_filter(program(*MACHINES[platform.machine()])):
        sys.exit("without_options: this system grants no filter")
    os.execvp(sys.argv[1], sys.argv[1:])
