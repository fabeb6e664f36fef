"""What the files of a case say (cases/README.md): its command lines, and bytes, as they stand or as parts that are joined. The tools
that run the programs take their inputs here."""

import os
import re
import shlex
import socket
import subprocess
from pathlib import Path

ROOT = Path(__file__).resolve().parent.parent / "cases"
NULL = b"\x47\x1F\xFF\x10" + b"\xFF" * 184


def run(program, words, given, **how):
    """Status, output and fault lines of a program with these words and this input."""
    done = subprocess.run([program, *words], input=given, stdout=subprocess.PIPE, stderr=subprocess.PIPE, timeout=60, **how)
    return done.returncode, done.stdout, done.stderr


def byte_by_byte(program, words, given):
    """The answer where each read gives one byte: a socket of messages of one byte each."""
    ours, theirs = socket.socketpair(socket.AF_UNIX, socket.SOCK_SEQPACKET)
    with theirs:
        running = subprocess.Popen([program, *words], stdin=theirs, stdout=subprocess.PIPE, stderr=subprocess.PIPE)
    if os.fork() == 0:
        try:
            for byte in given:
                ours.send(bytes([byte]))
        except OSError:
            pass
        os._exit(0)
    ours.close()
    out, told = running.communicate(timeout=60)
    os.wait()
    return running.returncode, out, told


def commands(case):
    """The words of each command line of a case, after the program's name."""
    lines = [shlex.split(line, comments=True) for line in (case / "commands").read_text().splitlines()]
    if any(words and words[0] != case.parent.name for words in lines):
        raise ValueError(f"each command line begins with {case.parent.name}")
    return [list(map(word, words[1:])) for words in lines if words]


def word(text):
    """A word as a shell takes it: $'\\xFF' is the byte FF, which is no UTF-8."""
    return re.sub(r"\$\\x(..)", lambda byte: os.fsdecode(bytes.fromhex(byte[1])), text)


def given(case, name, program=None):
    """The bytes of a case's file of this name, or of its parts; None where there is neither."""
    return next((bytes_of(path, program) for path in (case / name, case / f"{name}.parts") if path.exists()), None)


def rows(case, program=None):
    """Of each row of a case its input, the status, the output and the fault lines that are the answer, and whether the output may go on."""
    path = case / "rows"
    for line in path.read_text().splitlines() if path.exists() else []:
        if line and line[0] != "#":
            answer, *parts = line.split(" | ")
            status, where, *text = answer.split(" ", 2)
            if where not in ("output", "begins", "fault", "nothing"):
                raise ValueError(f"a row's answer is on output, begins it, is a fault, or nothing, not {where}")
            told = b"" if where == "nothing" else lines(*text).encode() + b"\n"
            data = b"".join(part(case, *one.split(" ", 1), program) for one in parts)
            yield data, int(status), b"" if where == "fault" else told, told if where == "fault" else b"", where == "begins"


def bytes_of(path, program=None):
    """The bytes of a file; of one with parts those that its lines say, where the program makes what is to be made."""
    if path.suffix != ".parts":
        return path.read_bytes()
    data = b""
    for line in path.read_text().splitlines():
        word, _, rest = line.partition(" ")
        if word == "digits":
            data = b"".join(data[at: at + 188].hex().encode() + b"\n" for at in range(0, len(data), 188))
        elif word and word[0] != "#":
            data += part(path.parent, word, rest, program)
    return data


def part(folder, word, rest, program):
    """The bytes that a line says."""
    if word == "file":
        return bytes_of(folder / rest, program)
    if word == "changed":
        return changed(folder, rest, program)
    if word == "hex":
        return joined(rest)
    if word == "packet":
        return packet(*rest.partition(".."))
    if word == "null":
        return NULL * int(rest)
    if word == "record":
        stream, dts, pts, body = rest.split(" ", 3)
        return record(int(stream), int(dts), int(pts), joined(body))
    if word == "marked":
        marks, stream, dts, pts, body = rest.split(" ", 4)
        return record(int(stream), int(dts), int(pts), joined(body), int(marks))
    if word == "records":
        count, stream, dts, apart, body = rest.split(" ", 4)
        times = range(int(dts), int(dts) + int(count) * int(apart), int(apart))
        return b"".join(record(int(stream), time, time, joined(body)) for time in times)
    if word == "made":
        return made(folder, rest, program)
    if word == "text":
        return lines(rest).encode()
    if word == "count":
        first, last, text = rest.split(" ", 2)
        return b"".join(lines(text.replace("#", str(n))).encode() for n in range(int(first), int(last) + 1))
    if word == "times":
        count, again, rest = rest.split(" ", 2)
        return part(folder, again, rest, program) * int(count)
    if word == "apart":
        before, after, name = rest.split(" ", 2)
        data = bytes_of(folder / name, program)
        return b"".join(joined(before) + data[at: at + 188] + joined(after) for at in range(0, len(data), 188))
    raise ValueError(f"no part begins with {word}")


def lines(text):
    """Text with line feeds for \\n, and carriage returns for \\r."""
    return text.replace("\\n", "\n").replace("\\r", "\r")


def changed(folder, rest, program):
    """A file with one place changed: FILE: OLD -> NEW."""
    name, _, change = rest.partition(": ")
    old, _, new = (lines(text).encode() for text in change.partition(" -> "))
    data = bytes_of(folder / name, program)
    if data.count(old) != 1:
        raise ValueError(f"{old.decode()} does not stand in {name} once")
    return data.replace(old, new)


def made(folder, rest, program):
    """What the program itself writes of a file: COMMAND < FILE."""
    command, _, name = rest.partition(" < ")
    status, out, told = run(program, shlex.split(command)[1:], bytes_of(folder / name))
    if status:
        raise ValueError(f"{rest} ends with status {status}: {told.decode(errors='replace').strip()}")
    return out


def joined(text):
    return b"".join(map(some_bytes, text.split()))


def some_bytes(word):
    """Digits, 4711; a byte so many times, FF*94; bytes of the worked unit from one place to another, unit[0:170]."""
    if word.startswith("unit["):
        begin, end = word[5:-1].split(":")
        return worked_unit(int(end))[int(begin):]
    digits, _, times = word.partition("*")
    return bytes.fromhex(digits) * int(times or 1)


def worked_unit(size):
    return bytes(7 * at % 256 for at in range(size))


def packet(front, dots, back):
    """188 bytes, filled up with bytes FF at the dots."""
    front, back = joined(front), joined(back)
    data = front + (b"\xFF" * (188 - len(front) - len(back)) if dots else b"") + back
    if len(data) != 188:
        raise ValueError(f"a packet of {len(data)} bytes")
    return data


def record(stream, dts, pts, body, marks=0):
    """The record of an access unit (docs/PLANS.md, "Records of access units")."""
    return bytes([stream, marks]) + len(body).to_bytes(3, "big") + dts.to_bytes(8, "big") + pts.to_bytes(8, "big") + body
