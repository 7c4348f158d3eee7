#!/usr/bin/env python3
"""Two sessions of one gateway see each other come and go, as in presence.c, by the library for C in a shared object.

usage: presence.py LIBRARY        e.g. presence.py ./libzt_liveliness.so
"""
import ctypes, sys

OK, SHORT_BUFFER, NOTHING, ENDED = 0, 4, 15, 16
PEER = 2
WORDS = {0: 'here is', 1: 'gone is'}


class Handle(ctypes.Structure):
    """An engine, or none."""
    _fields_ = [('at', ctypes.c_void_p), ('there', ctypes.c_bool)]


class Engine:
    """A gateway with its sessions, until `close`."""

    def __init__(self, path, zid, mode, timeout):
        self.library = ctypes.CDLL(path)
        self.handle = Handle()
        self.call('zl_open', ctypes.c_uint64(0), ctypes.c_uint64(zid), ctypes.c_uint32(mode), ctypes.c_uint64(timeout))

    def status(self, name, *arguments):
        """What a call answers."""
        function = getattr(self.library, name)
        function.restype = ctypes.c_uint32
        return function(ctypes.byref(self.handle), *arguments)

    def call(self, name, *arguments):
        """A call that has to be carried out."""
        status = self.status(name, *arguments)
        if status != OK:
            raise RuntimeError('%s: status %d' % (name, status))

    def number(self, name, *arguments):
        """The number that a call gives."""
        number = ctypes.c_uint32()
        self.call(name, *arguments, ctypes.byref(number))
        return number.value

    def session(self):
        return self.number('zl_session_open')

    def declare(self, session, key):
        return self.number('zl_liveliness_declare_token', ctypes.c_uint32(session), key, ctypes.c_size_t(len(key)))

    def get(self, session, key):
        return self.number('zl_liveliness_get', ctypes.c_uint32(session), key, ctypes.c_size_t(len(key)))

    def subscribe(self, session, key):
        return self.number('zl_liveliness_declare_subscriber', ctypes.c_uint32(session), key, ctypes.c_size_t(len(key)), ctypes.c_uint32(1))

    def texts(self, name, end, *arguments):
        """The keys that calls give one after another, up to the status that ends them."""
        room, length = 8, ctypes.c_size_t()
        while True:
            key = ctypes.create_string_buffer(room)
            status = self.status(name, *arguments, key, ctypes.c_size_t(room), ctypes.byref(length))
            if status == SHORT_BUFFER:
                room = length.value
            elif status == OK:
                yield key.raw[:length.value].decode()
            elif status == end:
                return
            else:
                raise RuntimeError('%s: status %d' % (name, status))

    def print_samples(self, session, subscriber):
        kind = ctypes.c_uint32()
        for key in self.texts('zl_sample_try_recv', NOTHING, ctypes.c_uint32(session), ctypes.c_uint32(subscriber), ctypes.byref(kind)):
            print('session %d: %s %s' % (session, WORDS[kind.value], key))

    def print_replies(self, session, query):
        for key in self.texts('zl_reply_try_recv', ENDED, ctypes.c_uint32(session), ctypes.c_uint32(query)):
            print('session %d: reply %s' % (session, key))
        print('session %d: end of replies' % session)


def main(words):
    if len(words) != 1:
        print(__doc__, file=sys.stderr)
        return 64
    engine = Engine(words[0], 1, PEER, 10000)
    ann, bob = engine.session(), engine.session()
    token = engine.declare(ann, b'room/ann')
    seen_by_bob, seen_by_ann = engine.subscribe(bob, b'room/*'), engine.subscribe(ann, b'room/*')
    engine.declare(bob, b'room/bob-with-a-long-name')
    engine.print_samples(bob, seen_by_bob)
    engine.print_samples(ann, seen_by_ann)
    engine.print_replies(ann, engine.get(ann, b'room/**'))
    engine.call('zl_liveliness_undeclare_token', ctypes.c_uint32(ann), ctypes.c_uint32(token))
    engine.print_samples(bob, seen_by_bob)
    engine.call('zl_face_close', ctypes.c_uint32(bob))
    engine.print_samples(ann, seen_by_ann)
    engine.call('zl_close')
    return 0


sys.exit(main(sys.argv[1:]))
