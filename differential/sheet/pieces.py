"""What a program writes for input that reaches it a few bytes at a time, for the comparisons that use it."""
import contextlib
import subprocess

PIECES = 4000  # the bytes that come so
SIZES = (1, 3, 100, PIECES, PIECES)


def written(program, s, size):
    """What a program writes for bytes of which the first PIECES reach it so many at a time."""
    process = subprocess.Popen([program], stdin=subprocess.PIPE, stdout=subprocess.PIPE, bufsize=0)
    first = s[:PIECES]
    with contextlib.suppress(BrokenPipeError):
        for at in range(0, len(first), size):
            process.stdin.write(first[at: at + size])
    out, _ = process.communicate(s[PIECES:])
    return out if process.returncode == 0 else b"status %d" % process.returncode
