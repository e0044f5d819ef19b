"""The file that the cameras of `tools/try-pull` send, and its frames by checksum."""
import subprocess

# A key frame is followed by this number of frames less one, and none of them refers to an earlier group.
GROUP = 25

# How long the file is, in seconds. No part plays longer.
LENGTH = 90

# One slice for each frame: ffmpeg 5.1 decodes frames of several slices otherwise by RTSP than from the file.
ENCODER = f"keyint={GROUP}:min-keyint={GROUP}:scenecut=0:open-gop=0:sliced-threads=0"


def ffmpeg(*words):
    """Runs ffmpeg. What it writes to standard output."""
    done = subprocess.run(["ffmpeg", "-nostdin", "-loglevel", "error", *map(str, words)], capture_output=True, text=True)
    if done.returncode:
        raise AssertionError(f"ffmpeg {words}: {done.stderr}")
    return done.stdout


def sums(text):
    """The checksums of ffmpeg's `framemd5`, in order."""
    return [line.split(",")[5].strip() for line in text.splitlines() if not line.startswith("#") and line.count(",") > 4]


class Media:
    """A file of moving pictures (H.264) and a tone (AAC), and the checksums of its frames: decoded pictures, coded sound."""

    def __init__(self, folder):
        self.path = f"{folder}/media.mp4"
        picture, tone = "testsrc2=size=320x240:rate=25", "sine=frequency=440:sample_rate=16000"
        inputs = ("-f", "lavfi", "-i", picture, "-f", "lavfi", "-i", tone, "-t", LENGTH)
        video = ("-c:v", "libx264", "-preset", "ultrafast", "-tune", "zerolatency", "-x264-params", ENCODER, "-pix_fmt", "yuv420p")
        ffmpeg(*inputs, *video, "-c:a", "aac", "-b:a", "32k", "-y", self.path)
        pictures = sums(ffmpeg("-i", self.path, "-map", "0:v", "-fps_mode", "passthrough", "-f", "framemd5", "-"))
        sounds = sums(ffmpeg("-i", self.path, "-map", "0:a", "-c", "copy", "-f", "framemd5", "-"))
        self.sums = {"video": pictures, "audio": sounds}
        for kind, found in self.sums.items():
            assert len(set(found)) == len(found) > 1_000, f"{kind}: {len(set(found))} different frames of {len(found)}"

    def units(self):
        """The NAL units of the pictures, without start codes."""
        words = f"ffmpeg -nostdin -loglevel error -i {self.path} -map 0:v -c copy -bsf:v h264_mp4toannexb -f h264 -"
        stream = subprocess.run(words.split(), capture_output=True, check=True).stdout
        return [unit.rstrip(b"\0") for unit in stream.split(b"\0\0\1") if unit.strip(b"\0")]

    def differences(self, kind, got, least):
        """How frames that a player got differ from those of the file. Pictures are compared from the first key frame on: before it a player
        has no picture to which the others refer."""
        places = {it: place for place, it in enumerate(self.sums[kind])}
        found = [places.get(it) for it in got]
        group = GROUP if kind == "video" else 1
        begins = next((at for at, place in enumerate(found) if place is not None and place % group == 0), len(found))
        found = found[begins:]
        if len(found) < least:
            yield f"{kind}: {len(found)} of at least {least} frames came, after {begins} others"
        if foreign := found.count(None):
            yield f"{kind}: {foreign} of {len(found)} frames are none of the file's"
        elif gaps := [(a, b) for a, b in zip(found, found[1:]) if b != a + 1]:
            yield f"{kind}: {len(gaps)} gaps in {len(found)} frames, the first one from {gaps[0][0]} to {gaps[0][1]}"
