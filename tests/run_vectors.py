#!/usr/bin/env python3
"""run_vectors.py [-v] [--pipe] PROGRAM DIR

Feeds each DIR/NAME.bin to PROGRAM's standard input and holds what it writes to
DIR/NAME.out, byte for byte. Prints the names that fail (-v: what was wanted and
written), then 'N passed, M failed'; the exit status is 0 only if there are
vectors and none fails. A file of a pair that has no other fails too. --pipe feeds each file through a pipe in small pieces.
"""
import os
import subprocess
import sys
from concurrent.futures import ThreadPoolExecutor

TIMEOUT = 120
PIECE = 1000


def by_file(program, path):
    with open(path, "rb") as file:
        done = subprocess.run([program], stdin=file, stdout=subprocess.PIPE, timeout=TIMEOUT)
    return done.stdout


def by_pipe(program, path):
    with open(path, "rb") as file:
        data = file.read()
    child = subprocess.Popen([program], stdin=subprocess.PIPE, stdout=subprocess.PIPE)
    try:
        for at in range(0, len(data), PIECE):
            child.stdin.write(data[at:at + PIECE])
            child.stdin.flush()
        child.stdin.close()
    except BrokenPipeError:
        pass  # the program judges the first 65,536 bytes and may leave the rest
    written = child.stdout.read()
    child.wait(TIMEOUT)
    return written


def outcome(feed, program, path):
    """What the vector wants and what the program wrote; None where it did not end in time or a file is missing."""
    try:
        with open(path + ".out", "rb") as file:
            wanted = file.read()
        os.stat(path + ".bin")
    except FileNotFoundError as missing:
        return str(missing), None
    try:
        return wanted, feed(program, path + ".bin")
    except subprocess.TimeoutExpired:
        return wanted, None


def main(words):
    verbose = "-v" in words
    feed = by_pipe if "--pipe" in words else by_file
    names = [word for word in words if not word.startswith("-")]
    if len(names) != 2:
        sys.exit(__doc__)
    program, folder = os.path.abspath(names[0]), names[1]
    vectors = sorted({name[:-4] for name in os.listdir(folder) if name.endswith((".bin", ".out"))})
    failed = 0
    with ThreadPoolExecutor(os.cpu_count() or 1) as pool:
        paths = [os.path.join(folder, name) for name in vectors]
        outcomes = pool.map(lambda path: outcome(feed, program, path), paths)
        for name, (wanted, written) in zip(vectors, outcomes):
            if wanted != written:
                failed += 1
                print(f"FAIL {name}: wanted {wanted!r}, got {written!r}" if verbose else f"FAIL {name}")
    print(f"{len(vectors) - failed} passed, {failed} failed")
    return 1 if failed or not vectors else 0


if __name__ == "__main__":
    sys.exit(main(sys.argv[1:]))
