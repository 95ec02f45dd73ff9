"""What the tests share: where things stand, how programs and reference are made, fed and compared."""

import fcntl
import os
import shutil
import struct
import subprocess
import sys
import termios
import threading
import time

ROOT = os.path.dirname(os.path.dirname(os.path.realpath(__file__)))
WORK = os.path.join(ROOT, "target", "tests")
BENCH = os.path.join(ROOT, "bin", "bench")
# A pipe in packet mode hands each write to a read of its own, as long as it is no longer than this.
LONGEST_PACKET = 4_096
# The most that a pipe can be asked to hold.
LARGEST_PIPE = 1 << 20


def stop(message):
    sys.exit(f"{os.path.basename(sys.argv[0])}: {message}")


def usage(text):
    """Says how a script is called: to who asks for it, or to who called it wrongly."""
    asked = sys.argv[1:] in (["-h"], ["--help"])
    print(text.strip(), file=sys.stdout if asked else sys.stderr)
    sys.exit(0 if asked else 2)


def native(name):
    """The path of a program of these sources, proved and linked."""
    done = subprocess.run([os.path.join(ROOT, "tests", "native"), name], stdout=subprocess.PIPE, text=True)
    if done.returncode != 0:
        stop(f"there is no {name} to try")
    return done.stdout.rstrip("\n")


def native_bench():
    return native("bench")


def release_reference():
    """The plain Rust reference, compiled for release."""
    if shutil.which("rustc") is None:
        stop("rustc is missing: the reference is a Rust program")
    program = os.path.join(WORK, "reference")
    done = subprocess.run(["rustc", "--edition", "2021", "-C", "opt-level=3", "-C", "codegen-units=1", "-C", "panic=abort",
                           "-o", program, os.path.join(ROOT, "docs", "src", "reference.rs")])
    if done.returncode != 0:
        stop("the reference does not compile")
    return program


def make_session(path, seed, lines, *options):
    """Has sessions.py write a session to a file."""
    script = os.path.join(ROOT, "docs", "src", "sessions.py")
    with open(path, "wb") as file:
        if subprocess.run([sys.executable, script, str(seed), str(lines), *options], stdout=file).returncode != 0:
            stop("sessions.py failed")


def answers(command, session, path):
    """Runs a program on a session, from a file that is open, into a file; it has to end well and in silence."""
    with open(path, "wb") as file:
        done = subprocess.run(command, stdin=session, stdout=file, stderr=subprocess.PIPE)
    if done.returncode != 0 or done.stderr:
        stop(f"{command[0]}: status {done.returncode}, standard error {done.stderr!r}")


# ------------------------------------------------------------------ feeding

def from_file(command, session, output):
    with open(session, "rb") as file:
        answers(command, file, output)


def through_pipe(command, session, output, sizes, packets=False, wait=False):
    """Feeds a session in pieces of these sizes, through a pipe.

    A read of the program ends where a piece ends if the pieces are packets, or if each waits until the pipe is empty.
    """
    reading, writing = os.pipe2(os.O_CLOEXEC | (os.O_DIRECT if packets else 0))
    if wait:
        fcntl.fcntl(writing, fcntl.F_SETPIPE_SZ, LARGEST_PIPE)
    ended = threading.Event()
    feeder = threading.Thread(target=write_pieces, args=(writing, session, sizes, wait, ended))
    feeder.start()
    try:
        answers(command, reading, output)
    finally:
        ended.set()
        os.close(reading)  # a feeder that still writes gets an error and ends
        feeder.join()


def write_pieces(writing, session, sizes, wait, ended):
    with open(session, "rb") as file, os.fdopen(writing, "wb", buffering=0) as pipe:
        try:
            while piece := file.read(next(sizes)):
                while wait and not ended.is_set() and held(writing):
                    time.sleep(0.000_02)
                while piece:
                    piece = piece[pipe.write(piece):]
        except BrokenPipeError:
            pass  # the program's answers will tell


def held(pipe):
    """How many bytes a pipe has that nobody has read."""
    return struct.unpack("i", fcntl.ioctl(pipe, termios.FIONREAD, bytes(4)))[0]


# ---------------------------------------------------------------- comparing

def difference(session, wanted, got, names=("reference", "bench")):
    """Says where two outputs part."""
    wanted, got = wanted.split(b"\n"), got.split(b"\n")
    number = next((number for number, (one, two) in enumerate(zip(wanted, got)) if one != two), min(len(wanted), len(got)))
    with open(session, "rb") as file:
        lines = file.read().split(b"\n")

    def at(parts):
        return repr(parts[number])[1:200] if number < len(parts) else "nothing"

    return (f"  line {number + 1}: {at(lines)}\n  {names[0]}: {at(wanted)}\n  {names[1]}: {at(got)}\n"
            f"  the session is kept: {os.path.relpath(session)}")
