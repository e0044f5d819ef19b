"""`relay pass`: what it writes of a recorded stream, and its lines and statuses."""
import os
import pathlib
import re
import select
import subprocess
import time

# What ffmpeg 5.1 sent to a server that it published video and audio to for two seconds: its six requests, and its frames.
STREAM = (pathlib.Path(__file__).resolve().parent / "ffmpeg.rtsp").read_bytes()

# A request that no server reads, and the frame of an RTP packet.
BAD_LINE, FRAME = b"HELLO\r\n", b"$\0\0\x0c\x80\x60" + bytes(10)


def frames(stream):
    """The frames of a stream, each as its channel and its data (RFC 2326, 10.12). Requests are skipped."""
    at = 0
    while at < len(stream):
        if stream[at:at + 1] == b"$":
            end = at + 4 + int.from_bytes(stream[at + 2:at + 4], "big")
            yield stream[at + 1], stream[at + 4:end]
        else:
            end = stream.index(b"\r\n\r\n", at) + 4
            length = re.search(rb"Content-Length: *(\d+)", stream[at:end])
            end += int(length[1]) if length else 0
        at = end


def sent_on(stream, channels):
    """The frames of a stream that come on these channels, each on the channel that it goes out on."""
    return b"".join(b"$" + bytes((channels[channel],)) + len(data).to_bytes(2, "big") + data for channel, data in frames(stream) if channel in channels)


def passed(program, stream, *words):
    done = subprocess.run([program, "pass", *words], input=stream, capture_output=True, timeout=20)
    return done.returncode, done.stdout, done.stderr.decode()


def recorded_stream(program):
    """Each frame of the tracks that are named comes out, byte for byte and in order, on the channels that are named."""
    for words, channels in (
        (("--channels", "0-1,2-3"), {0: 0, 1: 1, 2: 2, 3: 3}),
        (("--keep", "1", "--channels", "0-1,2-3"), {0: 0, 1: 1, 2: 2, 3: 3}),
        (("--channels", "0-1,2-3", "--to", "6-5,255-9"), {0: 6, 1: 5, 2: 255, 3: 9}),
        (("--channels", "0-1,2-3", "--to", "4-5"), {0: 4, 1: 5}),
        (("--channels", "2-3"), {2: 2, 3: 3}),
        ((), {0: 0, 1: 1}),
    ):
        status, out, line = passed(program, STREAM, *words)
        if (status, out, line) != (0, sent_on(STREAM, channels), ""):
            yield f"pass {' '.join(words)} ends with {status}, {line!r} and {len(out)} bytes of {len(sent_on(STREAM, channels))}"


def ends_of_streams(program):
    """A stream that can't be read ends with a line after the frames before it; a command line that isn't understood with status 2."""
    for stream, wanted in (
        (b"", (0, b"", "")),
        (FRAME + b"$\0\0", (0, FRAME, "")),
        (FRAME + BAD_LINE + FRAME, (1, FRAME, "relay: stream fault 1\n")),
        (b"$\0\0\x01x" + FRAME, (0, FRAME, "")),
    ):
        if (told := passed(program, stream)) != wanted:
            yield f"a stream of {len(stream)} bytes ends with {told}, and not {wanted}"
    for text in ("", "0", "0-0", "0-256", "0-1,", "0-1,1-2", "0-1 2-3", ",".join(f"{2 * k}-{2 * k + 1}" for k in range(17))):
        for option in "--channels", "--to":
            status, out, line = passed(program, FRAME, option, text)
            if (status, out) != (2, b"") or not line.startswith(f"error: invalid value '{text}' for '{option} <A-B>'"):
                yield f"{option} {text!r} ends with {status} and {line[:90]!r}"


def read_some(pipe, count, seconds):
    """What a pipe gives within this time, up to this number of bytes."""
    got, ends = b"", time.monotonic() + seconds
    while len(got) < count and select.select([pipe], [], [], max(0, ends - time.monotonic()))[0]:
        if not (piece := os.read(pipe.fileno(), count - len(got))):
            break
        got += piece
    return got


def frame_goes_out_at_once(program):
    """Each frame is written before the next one is read, so a pipe that stays open gets it."""
    process = subprocess.Popen([program, "pass", "--to", "2-3"], stdin=subprocess.PIPE, stdout=subprocess.PIPE)
    try:
        for number in range(3):
            process.stdin.write(FRAME)
            process.stdin.flush()
            if (out := read_some(process.stdout, len(FRAME), 10)) != b"$\2" + FRAME[2:]:
                yield f"frame {number} is written as {out!r} within ten seconds"
    finally:
        process.stdin.close()
        process.wait(20)
        process.stdout.close()


def closed_output(program):
    """A failed write ends it with a line."""
    process = subprocess.Popen([program, "pass"], stdin=subprocess.PIPE, stdout=subprocess.PIPE, stderr=subprocess.PIPE)
    process.stdout.close()
    process.stdin.write(FRAME * 100)
    _, line = process.communicate(timeout=20)
    if (process.returncode, line) != (1, b"relay: write failed\n"):
        yield f"it ends with {process.returncode} and {line!r}"


PARTS = [(part, ()) for part in (recorded_stream, ends_of_streams, frame_goes_out_at_once, closed_output)]
