#!/usr/bin/env python3
"""The kit's compiler for a module that `rt try` makes, but in parts, side by side: in_parts.py FOLDER KEPT WORD..

The folder has the kit's clang and ld.lld, and the words are clang's. clang makes code of a module on one processor, and takes a minute for
the program's. The linker holds the same LLVM: it leaves out the functions that nothing calls, and makes code of the parts at once. So
tools/kept.py makes a program of the module and keeps it in the folder KEPT; then this fails, and `rt try`, whose own run isn't wanted any more,
ends. Where KEPT is empty or no program can be made, it makes what `rt try` asks for, with the checks of addresses. Where the words are others
than those known here, or the linker fails, clang does it.
"""
import os
import pathlib
import re
import shlex
import shutil
import subprocess
import sys

import kept

CALL = re.compile(
    r"--target=x86_64-unknown-linux-gnu --sysroot=\S+ -march=x86-64 ((?:-mllvm -\S+ |-f(?:function|data)-sections )+)"
    r"--no-default-config -no-canonical-prefixes -fintegrated-cc1 -fno-crash-diagnostics -Werror "
    r"-c -x ir (\S+) -o (\S+) -fPIE -O0 -fsanitize=address"
)
# What clang has by its words -O0, -fPIE, -fsanitize=address and -Werror. Each function and each datum has a section in a link of modules anyway.
SAME = "--lto-CGO0 -mllvm -relocation-model=pic --lto-newpm-passes=asan -mllvm -asan-use-after-scope --fatal-warnings".split()


def link(new, old, but):
    """Makes a folder of links to what the other holds, but for these names."""
    new.mkdir()
    for it in old.iterdir():
        if it.name not in but:
            (new / it.name).symlink_to(it)


def rt(folder, keep=""):
    """The rt of a kit that is made in the folder, of links to the kit at hand and a clang that calls this; else the rt at hand."""
    new = pathlib.Path(folder, "kit")
    old = pathlib.Path(shutil.which("rt") or "rt").resolve().parent.parent
    if not (old / "toolchain/bin/ld.lld").exists():
        return "rt"
    try:
        # rt finds its kit from the place of its own file.
        link(new, old, {"bin", "toolchain"})
        link(new / "bin", old / "bin", {"rt", "rtlib.py", "rattle"})
        for name in ("rt", "rtlib.py"):
            shutil.copy(old / "bin" / name, new / "bin" / name)
        # Beside a try, rt has the names checked, for a hint that isn't shown here: this takes a processor as long as the try itself.
        (new / "bin/rattle").symlink_to("/bin/true")
        link(new / "toolchain", old / "toolchain", {"bin"})
        link(new / "toolchain/bin", old / "toolchain/bin", {"clang"})
        clang = new / "toolchain/bin/clang"
        clang.write_text(f'#!/bin/sh\nexec {shlex.join([sys.executable, os.path.realpath(__file__), str(old / "toolchain/bin"), str(keep)])} "$@"\n')
        clang.chmod(0o755)
    except OSError:
        return "rt"
    return str(new / "bin/rt")


def main(folder, keep, words):
    found = CALL.fullmatch(" ".join(words))
    if found:
        passed = [it for flag in re.findall(r"-mllvm (\S+)", found[1]) for it in ("-mllvm", flag)]
        if keep and kept.make(pathlib.Path(keep), pathlib.Path(folder).parent.parent, passed, found[2]):
            return 1
        call = [f"{folder}/ld.lld", "-r", f"--lto-partitions={kept.PARTS}", *SAME, *passed, "-o", found[3], found[2]]
        if subprocess.run(call, stdin=subprocess.DEVNULL, capture_output=True).returncode == 0:
            return 0
    os.execv(f"{folder}/clang", [f"{folder}/clang", *words])


if __name__ == "__main__":
    sys.exit(main(sys.argv[1], sys.argv[2], sys.argv[3:]))
