#!/usr/bin/env python3
"""Runs the kit's command rt with these words, faster where a crate stands on many others.

With the words `below NAME --jobs N` it proves the libraries that a crate stands on, each as soon as those below it are proved, at
most N at a time: rt gives each one processor, or does one after the other. Those with the longest chains of crates above them may
use all N processors, since nothing is done before these chains are, and those that can wait give way to them. What another clone on
this machine has built of the same text is taken over, if the kit does so.

With `program NAME --jobs N` it proves a program and all that it stands on as the gate does, and builds it: from nothing, each crate over
the statements of those below it and not over their proofs, which takes half as long; but a crate that changes is proved anew as a whole
then, and so is each one above it. What an earlier run of this or of the gate proved on this machine, over the same files, is taken over,
if the kit keeps it.

rt knows by a stamp whether a library is as it was: a sum of its sources and of the stamps of all libraries that it names. It
reckons each of them anew wherever one is named, which for the program bstore takes longer than the proofs. Here the stamp of a
folder is reckoned once a run, so the sources must not change meanwhile. Where the kit's rt is built otherwise, it runs as it is.
"""
import importlib.machinery
import importlib.util
import os
import queue
import shutil
import sys
import tempfile
import threading

# A crate whose chain is at least this part of the longest one would be the next to wait for: it gives way to that one alone.
URGENT = 0.9

# What proving a crate costs that doesn't depend on its code, reading what it stands on, as so many bytes of code.
READING = 5000


def loaded(file):
    """Loads a program of the kit as a module."""
    sys.dont_write_bytecode = True
    name = f"kit_{os.path.basename(file)}"
    loader = importlib.machinery.SourceFileLoader(name, file)
    kit = importlib.util.module_from_spec(importlib.util.spec_from_loader(name, loader))
    sys.modules[name] = kit
    loader.exec_module(kit)
    return kit


def keep_stamps(crate):
    """Has the kit's class of crates keep each stamp that it reckons."""
    kept, reckoned = {}, crate.stamp

    def stamp(self):
        if self.folder not in kept:
            kept[self.folder] = reckoned(self)
        return kept[self.folder]

    crate.stamp = stamp


def size_of(crate):
    """The bytes of a crate's code, which its proof takes about as long as: a function costs, and lemmas take little."""
    files = (os.path.join(place, name) for place, _, names in os.walk(os.path.join(crate.folder, "src")) for name in names)
    return READING + sum(map(os.path.getsize, files))


def longest_chains(crates):
    """The bytes of the longest chain of crates from each one up, itself counted. Lower crates come first in the list."""
    chains = {}
    for crate in reversed(crates):
        chains[crate] = size_of(crate) + max((chains[it] for it in crates if crate in it.deps), default=0)
    return chains


def prove_one(prove, crate, jobs, nice, ended):
    """Proves a crate with so many jobs and this niceness, and tells its status and what it printed."""
    status, said = 1, ""
    try:
        if nice:
            os.setpriority(os.PRIO_PROCESS, threading.get_native_id(), nice)  # what the thread starts has it too
        os.makedirs(os.path.join(crate.folder, "out"), exist_ok=True)
        with tempfile.TemporaryFile("a+", errors="replace") as crate.out:
            status = prove(crate, ["--jobs", str(jobs)])
            crate.out.seek(0)
            said = crate.out.read()
    finally:
        ended.put((crate, status, said))


def named(crates, name):
    """The crate of this name."""
    return next(it for it in crates if it.name == name)


def offer_built(kit, crates):
    """Offers the libraries that are built to other clones, where the kit shares work."""
    if not hasattr(kit, "share_work"):
        return
    kit.share_work(True)
    for crate in crates:
        if crate.is_built():
            kit.offer(crate, crate.stamp())


def prove_below(kit, name, most):
    """Proves what a crate stands on, as libraries over which a check goes on."""
    todo = named(kit.rtlib.crates_below(os.getcwd()), name).below()
    offer_built(kit, todo)
    return prove_all(kit, todo, most, lambda crate, flags: crate.build_rlib(flags, anew=False))


class KeptNothing:
    """Stands for the proofs that earlier runs kept, where the kit keeps none."""

    def key(self, crate):
        return None

    def give(self, crate, tests, key):
        return False

    def is_built(self, crate):
        pass

    def keep(self, crate, tests, key):
        pass


def gate_crates(kit):
    """The crates as the gate proves them, and what is kept of their proofs. A kit that keeps none would clear what checks have left."""
    if hasattr(kit, "Kept"):
        crates = kit.crates_of(os.getcwd())
        return crates, kit.Kept(crates)
    kit.rtlib.Crate = kit.Crate
    return kit.rtlib.crates_below(os.getcwd()), KeptNothing()


def prove_program(kit, name, most):
    """Proves a program and what it stands on as the gate does, and builds it."""
    kit.Crate.cuts_libraries = True
    kit.Crate.allowed = kit.handles_of(os.getcwd())
    crates, kept = gate_crates(kit)
    program = named(crates, name)

    def prove(crate, flags):
        key = kept.key(crate)
        is_given = kept.give(crate, False, key)
        status = 0 if is_given else crate.ci(flags, False)
        if not status:
            kept.is_built(crate)
            if not is_given:
                kept.keep(crate, False, key)
        return status

    return prove_all(kit, [*program.below(), program], most, prove)


def prove_all(kit, todo, most, prove):
    """Proves these crates, each behind those that it stands on. Those with the longest chains above them come first."""
    kit.rtlib.guarded()  # it can't be called first in a thread
    held = kit.rtlib.lock(todo)
    chains, done, ended, busy, failed = longest_chains(todo), set(), queue.Queue(), set(), 0
    while busy or todo and not failed:
        ready = [] if failed else [it for it in todo if done.issuperset(it.below())]
        ready.sort(key=chains.get)
        while ready and len(busy) < most:
            crate = ready.pop()
            # of a crate that is being proved only what waits for it counts, since nobody knows how far it is
            longest = max(map(chains.get, todo))
            todo.remove(crate)
            busy.add(crate)
            is_urgent = chains[crate] >= URGENT * longest
            jobs = most if is_urgent else max(1, most // (len(ready) + len(busy)))
            nice = 0 if chains[crate] == longest else 5 if is_urgent else 10
            threading.Thread(target=prove_one, args=(prove, crate, jobs, nice, ended), daemon=True).start()
        crate, status, said = ended.get()
        busy.remove(crate)
        failed = failed or status
        if not status:
            done.add(crate)
        print(f"{said}== {crate.name}{f': failed ({status})' if status else ''}", flush=True)
    for it in held:
        os.close(it)
    return failed


def prepared(file, words):
    """The call that runs the kit's command in this file. Its `plant` is a program of its own beside it."""
    if words[:1] == ["plant"]:
        kit = loaded(f"{os.path.dirname(file)}/rt-plant")
        keep_stamps(kit.rt.Crate)
        return lambda: kit.main(*words[1:])
    kit = loaded(file)
    keep_stamps(kit.rtlib.Crate)
    for word, call in (("below", prove_below), ("program", prove_program)):
        if words[:1] == [word]:
            return lambda: call(kit, words[1], int(words[3]))
    return lambda: kit.main(words)


def main():
    found = shutil.which("rt")
    if found is None:
        sys.exit("rt.py: the kit's command rt isn't on the PATH")
    try:
        call = prepared(os.path.realpath(found), sys.argv[1:])
    except (AttributeError, ImportError, OSError, SyntaxError):
        os.execv(found, [found, *sys.argv[1:]])
    sys.exit(call())


if __name__ == "__main__":
    main()
