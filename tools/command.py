"""What the tools share at the command line: help, words and files, the program, and one line for whatever goes wrong."""
import os
import pathlib
import subprocess
import sys
from typing import NamedTuple

from formats import Fault, Settings, settings_of, value_of

TOP = pathlib.Path(__file__).resolve().parent.parent
PROGRAM = TOP / "crates" / "tetra_cli" / "out" / "tetra_cli"


class Taken(NamedTuple):
    """What the arguments of a tool say."""

    settings: Settings
    values: dict
    options: dict
    files: list


def taken(arguments, text, more=None, options=None, most_files=1):
    """Sorts arguments into words `key=value`, options (`--name VALUE`, or `--name` where None is told) and file names."""
    if "--help" in arguments:
        print(text.strip())
        sys.exit(0)
    words, given, files = [], {}, []
    rest = iter(arguments)
    for word in rest:
        if word.startswith("--"):
            given[word[2:]] = option(word, rest, options or {})
        elif "=" in word:
            words.append(word)
        else:
            files.append(word)
    if len(files) > most_files:
        raise Fault(f"'{files[most_files]}' is one name too many; --help says what is taken")
    settings, values = settings_of(words, more)
    return Taken(settings, values, given, files)


def option(word, rest, options):
    """The value of an option; True for one that takes none."""
    name = word[2:]
    if name not in options:
        raise Fault(f"there is no option {word}; --help says what is taken")
    if options[name] is None:
        return True
    value = next(rest, None)
    if value is None:
        raise Fault(f"{word} takes a value; --help says which")
    return value_of(f"{word} {value}", value, options[name])


def opened(name="-"):
    """An open file, or standard input where no name is given or it is `-`."""
    return sys.stdin.buffer if name == "-" else open(name, "rb")


def output():
    """Standard output for bytes, buffered whatever Python was told of it: a bare descriptor may take a part of a piece."""
    return open(sys.stdout.fileno(), "wb", closefd=False)


def built(program=None):
    """The program; proves and builds it first where it is not built and no other one is named."""
    if program is not None:
        if not os.access(program, os.X_OK):
            raise Fault(f"{program}: no program there")
        return program
    if not PROGRAM.exists():
        print("proving and building the program; from nothing this takes half an hour", file=sys.stderr, flush=True)
        words = ["rt", "run", "--", "encode", "dir=ul"]
        quiet = {"stdin": subprocess.DEVNULL, "stdout": subprocess.DEVNULL, "stderr": subprocess.DEVNULL}
        subprocess.run(words, cwd=PROGRAM.parent.parent, check=False, **quiet)
    if not PROGRAM.exists():
        raise Fault("the program is not built: 'rt run' in crates/tetra_cli says why")
    return str(PROGRAM)


def tetra(program, words, data=b""):
    """What the program writes, the line that it says, and its exit code."""
    done = subprocess.run([program, *words], input=data, capture_output=True, check=False)
    return done.stdout, done.stderr.decode(errors="replace").strip(), done.returncode


def run(main):
    """Runs a tool; whatever goes wrong is one line on standard error and a status that is not 0."""
    name = pathlib.Path(sys.argv[0]).name
    try:
        status = main(sys.argv[1:])
        sys.stdout.flush()
    except Fault as fault:
        line, status = str(fault), fault.status
    except BrokenPipeError:
        os.dup2(os.open(os.devnull, os.O_WRONLY), sys.stdout.fileno())
        line, status = "the output was closed before all was written", 5
    except OSError as error:
        line, status = f"{error.filename or 'output'}: {error.strerror}", 4
    except KeyboardInterrupt:
        line, status = "stopped", 130
    else:
        sys.exit(status)
    print(f"{name}: {line}", file=sys.stderr)
    sys.exit(status)
