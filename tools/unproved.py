#!/usr/bin/env python3
"""Runs the program's sources, unproved, with the words of a command line: unproved.py [WORD ..].

The first time a program is made of the sources, which tools/kept.py keeps until one of them changes, and that runs in the caller's place.
Where none can be made or kept, `rt try` runs the sources, in a folder of its own: so the script is handed on by its whole path, which the
note on a refusal then doesn't show, and each file that a COPY of it names by a path from the caller's folder is handed on as a copy under
that path. What the program writes is written when it has ended, and its status is the status. It is 1, which the program never has, where
there is no answer: where `rt try` fails, where the answer is longer than 2^20 bytes, where the run takes longer than ten minutes, and
where a file can't be handed on. Lines that begin with `perm: .. ` tell what is done meanwhile.
"""
import os
import pathlib
import re
import signal
import subprocess
import sys
import tempfile
import time

import in_parts
import kept
import scripts

TOP = pathlib.Path(__file__).resolve().parent.parent
TOLD = "perm: not proved yet: this answer comes from the sources as they stand, unproved; ./build proves them in an hour or more"
SECONDS = 600
ENDED = re.compile(rb"^run=ended status=(\d+) .*proved=no\n\Z", re.M)
# What the plain rt would say too: of a program that was started, or of sources that don't compile.
SETTLED = re.compile(rb"^checked: |error\[", re.M)
# So many seconds pass between two lines that tell what is done.
PACE = 15
# The lines of `rt try` itself, on the error stream.
OWN = re.compile(rb"^(?:interpreter|checked|races|run|rt)(?::|=).*\n", re.M)


class Refused(Exception):
    """Why a script can't be run by `rt try`."""


def say(text):
    print(text, file=sys.stderr, flush=True)


def give_up(text):
    say(f"perm: {text}")
    sys.exit(1)


def handed_on(name):
    """The flags that hand on what the caller's folder has under the name, for the program to find it under the same name."""
    if name.startswith("/") or not os.path.exists(name):
        return []
    within = os.path.normpath(name)
    if within.split("/")[0] == ".." or "=" in within:
        raise Refused(f"the unproved sources can't be given the file '{name}', only one below this folder; ./build first")
    if os.path.isdir(name):
        # A file in it makes the folder.
        return ["--data", f"{within}/empty={os.devnull}"]
    return ["--data", f"{within}={os.path.abspath(name)}"]


def script_at(words):
    """Where the name of a script stands in the words: alone, where it isn't an option, or behind `--`; else None."""
    if len(words) == 1 and words[0] and (words[0] == "-" or words[0][0] != "-"):
        return 0
    return 1 if len(words) == 2 and words[0] == "--" and words[1] else None


def flags(script):
    """What hands on the files of the script."""
    found = []
    if os.path.isfile(script):
        try:
            names = scripts.copied(pathlib.Path(script).read_bytes())
        except OSError:
            names = []
        for name in names:
            found += handed_on(os.fsdecode(name))
    return found


def by_its_word(said, path, word):
    """What was said of the script, under the name that the caller gave it."""
    return re.sub(b"^" + re.escape(os.fsencode(path)) + b":", lambda _: os.fsencode(word) + b":", said, flags=re.M)


def run(rt, words, folder):
    """Runs `rt try`, and tells meanwhile what it does."""
    with tempfile.TemporaryFile() as out, tempfile.TemporaryFile() as said:
        started = subprocess.Popen([rt, *words], cwd=TOP / "crates/perm_cli", stdin=subprocess.DEVNULL, stdout=out, stderr=said)
        try:
            wait(started, folder)
        except BaseException:
            started.terminate()
            started.wait()
            raise
        out.seek(0)
        said.seek(0)
        return subprocess.CompletedProcess(words, started.returncode, out.read(), said.read())


def wait(started, folder):
    begun, told, makes = time.monotonic(), 0, False
    say("perm: .. reads and checks the sources, the first time and after a change: a minute or so where the machine is at rest")
    while started.poll() is None:
        took = time.monotonic() - begun
        if folder and not makes and (folder / "call.json").exists():
            makes = True
            say(f"perm: .. makes a program of them, after {took:.0f} s: ten to thirty seconds more")
        if took >= told + PACE:
            told = took
            say(f"perm: .. {took:.0f} s so far")
        time.sleep(.1)


def tried(call, folder):
    """A run of `rt try`, with parts of a module side by side where the kit is known; where that fails, as it is."""
    with tempfile.TemporaryDirectory(prefix="perm-") as links:
        rt = in_parts.rt(links, folder or "")
        done = run(rt, call, folder)
        if rt != "rt" and not kept.program(folder) and not SETTLED.search(done.stderr):
            done = run("rt", call, None)
    return done


def made(folder, call=("try", "--", "--generate", "1")):
    """Makes the program of these sources in the folder, where it isn't there; where none can be made, gives the run of `rt try` instead."""
    if not folder:
        return tried(list(call), None)
    if kept.program(folder):
        return None
    with kept.turn(kept.PLACE, False) as is_ours:
        if is_ours or is_ours is None:
            return finished(folder if is_ours else None, call)
    say("perm: .. another call makes the program; waiting for it")
    with kept.turn(kept.PLACE, True) as is_ours:
        return None if kept.program(folder) else finished(folder if is_ours else None, call)


def finished(folder, call):
    if folder:
        # What a call that was ended left would tell a wrong step.
        (folder / "call.json").unlink(missing_ok=True)
    done = tried(list(call), folder)
    if kept.program(folder):
        say("perm: .. the program is made, and kept until a source changes")
        kept.tidy()
        return None
    return done


def answered(done, paths, words):
    """Writes what `rt try` told of the program's run; the status is the program's."""
    ended = ENDED.search(done.stderr)
    if not ended:
        sys.stderr.buffer.write(done.stderr)
        give_up("the unproved sources gave no answer; ./build first")
    said = OWN.sub(b"", done.stderr)
    for path, word in zip(paths, words):
        said = by_its_word(said, path, word)
    sys.stderr.buffer.write(said)
    try:
        sys.stdout.buffer.write(done.stdout)
        sys.stdout.buffer.flush()
    except OSError:
        # As the program ends where its output fails, and nothing is left for the interpreter to flush.
        os._exit(8)
    return int(ended[1])


def main(words):
    # So that what was begun is ended with it.
    signal.signal(signal.SIGTERM, lambda *_: sys.exit(143))
    say(TOLD)
    at = script_at(words)
    paths = [os.path.join(os.getcwd(), word) if it == at else word for it, word in enumerate(words)]
    refused, data = None, []
    try:
        data = flags(words[at]) if at is not None else []
    except Refused as reason:
        refused = str(reason)
    try:
        folder = kept.place()
        if refused and not folder:
            give_up(refused)
        done = made(folder, ["try", "--seconds", str(SECONDS), *data, "--", *paths])
        if not done:
            kept.optimise_behind(folder)
            # What Python ignores, the program doesn't.
            for it in (signal.SIGPIPE, signal.SIGXFSZ):
                signal.signal(it, signal.SIG_DFL)
            os.execv(kept.program(folder), [str(folder / "perm"), *words])
    except OSError as error:
        give_up(f"rt, of the kit that README.md names, can't be run ({error.strerror})")
    if refused:
        give_up(refused)
    return answered(done, paths, words)


if __name__ == "__main__":
    try:
        sys.exit(main(sys.argv[1:]))
    except KeyboardInterrupt:
        sys.exit(130)
