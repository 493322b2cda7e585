"""Writes the events of a process into a file."""
import json
import threading

_lock = threading.Lock()
_file = None


def open_file(path):
    """Opens the file of the process, to append to it. It is called once, before the first event."""
    global _file
    _file = open(path, "ab", buffering=0)


def event(**fields):
    """Writes the line of an event. The operating system has the line when the function returns."""
    line = json.dumps(fields).encode() + b"\n"
    with _lock:
        if _file.write(line) != len(line):
            raise OSError("a record that lacks a line says little")
