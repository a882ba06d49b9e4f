#!/usr/bin/env python3
"""Exports the jobs of a job file over a CARv1 file, and prints the reports and the SHA-256 of each archive.

Given a base, a file of what the receiver has, each archive is a difference: it leaves out what is sound in the base. From it
and the base the whole archive is restored, as the receiver does, and its SHA-256 is printed too.

usage: export.py LIBRARY.so FILE.car FILE.jobs [BASE.car]"""
import ctypes
import hashlib
import pathlib
import sys

DONE = 0


class Handle(ctypes.Structure):
    """What the library fills and frees."""

    _fields_ = [("is_held", ctypes.c_bool), ("held", ctypes.c_void_p)]


class Refused(Exception):
    pass


class Library:
    def __init__(self, path):
        self.calls = ctypes.CDLL(path)

    def filled(self, call, *words):
        """A handle that a call fills."""
        handle = Handle()
        status = call(*words, ctypes.byref(handle)) if call is self.calls.ix_export else call(ctypes.byref(handle), *words)
        if status != DONE:
            line = self.bytes(self.calls.ix_fault_line, handle).decode()
            self.free(handle)
            raise Refused(line or f"status {status}")
        return handle

    def of_bytes(self, call, given):
        return self.filled(call, ctypes.c_char_p(given), ctypes.c_size_t(len(given)))

    def store(self, first, *others):
        """A store of the blocks of CARv1 files, of which the first of each CID counts."""
        store = self.of_bytes(self.calls.ix_store_read_car, first)
        for car in others:
            self.changed(self.calls.ix_store_read_car, store, ctypes.c_char_p(car), ctypes.c_size_t(len(car)))
        return self.changed(self.calls.ix_store_freeze, store)

    def changed(self, call, handle, *words):
        """The handle after a call that changes what it has."""
        if call(ctypes.byref(handle), *words) != DONE:
            line = self.bytes(self.calls.ix_fault_line, handle).decode()
            raise Refused(line or "no memory")
        return handle

    def job(self, line):
        return self.of_bytes(self.calls.ix_job_from_line, line)

    def leave_out(self, job, base):
        """Makes a job leave out what is sound in a base."""
        self.changed(self.calls.ix_job_without, job, ctypes.byref(base))

    def export(self, store, job):
        return self.filled(self.calls.ix_export, ctypes.byref(store), ctypes.byref(job))

    def archive(self, result):
        return self.bytes(self.calls.ix_result_archive, result)

    def report(self, result):
        return self.bytes(self.calls.ix_result_report, result)

    def bytes(self, call, handle):
        """A copy of what a call tells of; nothing where the handle has no such bytes."""
        start, length = ctypes.c_void_p(), ctypes.c_size_t()
        if call(ctypes.byref(handle), ctypes.byref(start), ctypes.byref(length)) != DONE:
            return b""
        return ctypes.string_at(start, length.value)

    def free(self, *handles):
        for handle in handles:
            self.calls.ix_free(ctypes.byref(handle))


def restored(library, line, difference, base):
    """The whole archive, as a receiver makes it of the difference and of what it has."""
    store, job = library.store(difference, base), library.job(line)
    out = library.export(store, job)
    archive = library.archive(out)
    library.free(store, job, out)
    return archive


def main(path, car, jobs, base=None):
    library = Library(path)
    store = library.store(pathlib.Path(car).read_bytes())
    had = base and pathlib.Path(base).read_bytes()
    receiver = library.store(had) if base else Handle()
    for line in pathlib.Path(jobs).read_bytes().splitlines():
        if not line or line.startswith(b"#"):
            continue
        job = library.job(line)
        if base:
            library.leave_out(job, receiver)
        out = library.export(store, job)
        archive = library.archive(out)
        # The last line has the sums; a job may be called "total" too.
        print(*library.report(out).decode().splitlines()[:-1], sep="\n")
        print("  archive", hashlib.sha256(archive).hexdigest())
        if base:
            print("  restored", hashlib.sha256(restored(library, line, archive, had)).hexdigest())
        library.free(job, out)
    library.free(store, receiver)


if __name__ == "__main__":
    main(*sys.argv[1:])
