"""What the commands in Python do alike: words of a call, sources that are read, lines that are written, and how a call ends."""
import os
import re
import signal
import subprocess
import sys
import tempfile

ROOT = os.path.join(os.path.dirname(os.path.realpath(__file__)), "..")
MOST = 2 ** 64 - 1


class Misuse(Exception):
    """What is wrong with the words of a call."""


class Failure(Exception):
    """A failure of the machine; one without words has been told already."""


def run(command, page, arguments, called):
    """The exit status of a command: what `called` answers, or 2 with a line on standard error."""
    if arguments in (["-h"], ["--help"]):
        print(page, end="")
        return 0
    if arguments == ["--version"]:
        print(f"{command} (yengrazul) {version()}")
        return 0
    for name in ("SIGTERM", "SIGHUP"):
        signal.signal(getattr(signal, name), lambda *_: interrupted())
    try:
        return called(arguments)
    except (Misuse, Failure) as problem:
        told = str(problem)
    except OSError as problem:
        told = f"{shown(problem.filename)}: {problem.strerror}" if problem.filename else problem.strerror
    except KeyboardInterrupt:
        told = "interrupted"
    if told:
        sys.stderr.write(f"{command}: {printable(told)}\n")
    return 2


def interrupted():
    raise KeyboardInterrupt


def child(words, **more):
    """A process that is ended with this one, and waited for: it may have a first use under way, and ends that too."""
    with subprocess.Popen(words, stdin=subprocess.PIPE, stdout=subprocess.PIPE) as started:
        try:
            out, _ = started.communicate(**more)
        except KeyboardInterrupt:
            started.terminate()
            started.wait()
            raise
    return started.returncode, out


def version():
    with open(os.path.join(ROOT, "VERSION"), encoding="utf-8") as text:
        return text.read().strip()


# ---- the words of a call


def options(arguments, known):
    """The options with their values, and the other words; `known` says of each whether it has a value. Behind -- all are other words."""
    found, words, left = {}, [], list(arguments)
    while left:
        word = left.pop(0)
        if word == "--":
            words += ["./" + other if other.startswith("-") else other for other in left]  # a file of any name
            break
        if word not in known:
            if len(word) > 1 and word.startswith("-"):
                raise Misuse(f"unknown option {word}; see --help")
            words.append(word)
            continue
        if word in found:
            raise Misuse(f"{word} is given twice")
        if known[word] and not left:
            raise Misuse(f"{word} wants a value; see --help")
        found[word] = left.pop(0) if known[word] else True
    if "" in words:
        raise Misuse("a file with no name")
    return found, words


def number(what, word):
    """A decimal number of 64 bits."""
    if not re.fullmatch("[0-9]+", word) or int(word[:30]) > MOST or len(word.lstrip("0")) > 20:
        raise Misuse(f"{what} is a decimal number of 64 bits, not '{word[:40]}'")
    return int(word)


# ---- what is read and written


def read(source):
    """The bytes of a file, or of standard input where it is -."""
    if source != "-":
        with open(source, "rb") as file:
            return file.read()
    if sys.stdin is None:
        raise OSError(0, "standard input is closed")
    return sys.stdin.buffer.read()


def write(lines):
    if sys.stdout is None:
        raise OSError(0, "standard output is closed")
    try:
        sys.stdout.write("".join(line + "\n" for line in lines))
        sys.stdout.flush()
    except BrokenPipeError:  # whoever reads has enough
        os.dup2(os.open(os.devnull, os.O_WRONLY), sys.stdout.fileno())
    except OSError as problem:
        os.dup2(os.open(os.devnull, os.O_WRONLY), sys.stdout.fileno())  # or Python says it once more as it ends
        raise OSError(problem.errno, problem.strerror, "standard output") from None


def write_file(path, text):
    """A file, whole or not at all; a device, a pipe or a link is written to."""
    if os.path.islink(path) or (os.path.exists(path) and not os.path.isfile(path)):
        with open(path, "w", encoding="utf-8") as file:
            file.write(text)
        return
    try:
        handle, part = tempfile.mkstemp(prefix=".yengrazul.", dir=os.path.dirname(path) or ".")
    except OSError as problem:
        raise OSError(problem.errno, problem.strerror, path) from None
    try:
        with open(handle, "w", encoding="utf-8") as file:
            file.write(text)
        mask = os.umask(0)
        os.umask(mask)
        os.chmod(part, 0o666 & ~mask)
        os.replace(part, path)
    except BaseException as problem:
        os.unlink(part)
        if isinstance(problem, OSError):
            raise OSError(problem.errno, problem.strerror, path) from None
        raise


def shown(name):
    """A file's name for people."""
    return "standard input" if name == "-" else printable(os.fsdecode(name))


def printable(text):
    """A text of one line: control bytes as ?, and what is no UTF-8 as U+FFFD."""
    return re.sub(r"[\x00-\x1f\x7f]", "?", os.fsencode(text).decode("utf-8", "replace"))
