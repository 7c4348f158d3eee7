#!/usr/bin/env python3
"""Prints the transcript of a script, by the library for C in a shared object.

usage: run_script.py LIBRARY SCRIPT        e.g. run_script.py ./libzt_liveliness.so examples/liveliness.in

The exit status is that of the run; 3 where the script can't be read, 4 where the transcript can't be written, and 64 where there
aren't two words.
"""
import ctypes, sys

SHORT_BUFFER = 4


def load(path):
    library = ctypes.CDLL(path)
    library.zl_run.argtypes = [ctypes.c_char_p, ctypes.c_size_t, ctypes.c_char_p, ctypes.c_size_t, ctypes.POINTER(ctypes.c_size_t)]
    library.zl_run.restype = ctypes.c_uint32
    return library


def run(library, script):
    """The status of a run, and the transcript."""
    written, room = ctypes.c_size_t(), 4096
    while True:
        out = ctypes.create_string_buffer(room)
        status = library.zl_run(script, len(script), out, room, ctypes.byref(written))
        if status != SHORT_BUFFER:
            return status, out.raw[:written.value]
        room = written.value


def main(words):
    if len(words) != 2:
        print(__doc__, file=sys.stderr)
        return 64
    try:
        with open(words[1], 'rb') as file:
            script = file.read()
    except OSError as error:
        print('%s: %s' % (error.filename, error.strerror), file=sys.stderr)
        return 3
    status, transcript = run(load(words[0]), script)
    try:
        sys.stdout.buffer.write(transcript)
        sys.stdout.buffer.flush()
    except OSError:
        status = 4
    return status


sys.exit(main(sys.argv[1:]))
