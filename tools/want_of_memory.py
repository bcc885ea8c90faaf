#!/usr/bin/env python3
"""Lets each allocation of readburst and sendburst fail in turn, alone and with all after it.

    python3 tools/want_of_memory.py    at the top of the repository, with both programs built

No contract rules out a body that always answers that there is no memory, so this is tried. With enough memory a program is to print what
is stored for it, or what tools/reference.py makes, with status 0. Where an allocation fails, it is to end with status 1, a message on
standard error and nothing on standard output; or, where it can do without, to print all as before. Besides the stored runs, stations of
every channel and kind are opened, and transmitters of every channel. It wants a C compiler, cc or $CC, for failing_memory.c.
"""

import os
import subprocess
import sys
import tempfile

READBURST, SENDBURST = "crates/readburst", "crates/sendburst"
CHANNELS = {"bench": 6, "bcch": 192, "data24": 144, "data96": 480}
KINDS = ("count", "ranked", "float")


def stored(folder, name):
    with open(os.path.join(folder, name), "rb") as file:
        return file.read()


def reference(words, given):
    return subprocess.run([sys.executable, "tools/reference.py", *words], input=given, stdout=subprocess.PIPE, check=True).stdout


def cases():
    """What is said of a run, the program, its arguments, its input and what it is to print."""
    yield "readburst, stored run", READBURST, [], stored(READBURST, "stdin"), stored(READBURST, "stdout")
    words = stored(SENDBURST, "args").decode().split()
    yield "sendburst, stored run", SENDBURST, words, stored(SENDBURST, "stdin"), stored(SENDBURST, "stdout")
    openings = [bytes([channel, kind]) for channel in range(len(CHANNELS)) for kind in range(len(KINDS))]
    recording = b"".join(b"OP" + opening + b"MIMIMISTRE" for opening in openings)
    yield "readburst, every channel and kind", READBURST, [], recording, reference(["play"], recording)
    for form in ([], *(["--recording", kind] for kind in KINDS)):
        for name, bits in CHANNELS.items():
            words = [*form, name]
            messages = (b"1" * bits + b"\n") * 3
            yield "sendburst " + " ".join(words), SENDBURST, words, messages, reference(["send", *words], messages)


def run(program, words, given, memory):
    environment = dict(os.environ, **memory)
    ended = subprocess.run([program, *words], input=given, stdout=subprocess.PIPE, stderr=subprocess.PIPE, env=environment, timeout=60)
    return ended.returncode, ended.stdout, ended.stderr


def refused(status, shown, told):
    return status == 1 and shown == b"" and told != b""


def tried(folder, words, given, wanted, memory, count):
    """How many allocations there are, and for how many of them the run ends in the error, where it fails alone and with all after it."""
    program = os.path.abspath(os.path.join(folder, "out", os.path.basename(folder)))
    if run(program, words, given, dict(memory, ALLOCATIONS_TOLD=count))[:2] != (0, wanted):
        raise ValueError("with enough memory it does not print what it is to print")
    with open(count) as file:
        allocations = int(file.read())
    if allocations < 1:
        raise ValueError("no allocation was seen")
    ended = []
    for onward in ({}, {"ALLOCATIONS_FAIL_ONWARD": "1"}):
        ended.append(0)
        for number in range(1, allocations + 1):
            status, shown, told = run(program, words, given, dict(memory, ALLOCATION_FAILS=str(number), **onward))
            if refused(status, shown, told):
                ended[-1] += 1
            elif (status, shown) != (0, wanted):
                after = " and all after it" if onward else ""
                raise ValueError("allocation %d fails%s: status %d, %d bytes printed" % (number, after, status, len(shown)))
    return allocations, ended[0], ended[1]


def main():
    with tempfile.TemporaryDirectory() as folder:
        library = os.path.join(folder, "failing_memory.so")
        compiler = os.environ.get("CC", "cc")
        subprocess.run([compiler, "-shared", "-fPIC", "-O1", "-fno-builtin", "-o", library, "tools/failing_memory.c", "-ldl"], check=True)
        for name, program, words, given, wanted in cases():
            try:
                told = tried(program, words, given, wanted, {"LD_PRELOAD": library}, os.path.join(folder, "count"))
            except ValueError as wrong:
                sys.exit("%s: %s" % (name, wrong))
            print("%s: %d allocations; the error where one fails: %d; where it and all after it fail: %d" % (name, *told))


if __name__ == "__main__":
    main()
