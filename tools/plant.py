#!/usr/bin/env python3
"""Lists the wrong bodies that a crate's contracts let through, over the libraries that tools/kept.py keeps:

    tools/plant.py CRATE [FLAG..]   from the root, with the flags of `rt plant`

It is `rt plant`, whose first check would prove all libraries below the crate anew.
"""
import importlib.machinery
import importlib.util
import os
import subprocess
import sys

TOOLS = os.path.dirname(os.path.abspath(__file__))


def loaded(name, path):
    spec = importlib.util.spec_from_loader(name, importlib.machinery.SourceFileLoader(name, path))
    made = importlib.util.module_from_spec(spec)
    spec.loader.exec_module(made)
    return made


def main(name, flags):
    sys.dont_write_bytecode = True
    kept = loaded("kept", f"{TOOLS}/kept.py")
    root = os.path.dirname(TOOLS)
    crate = next(it for it in kept.crates_at(root) if it.name == name)
    if kept.in_lanes(crate.below(), kept.prove, True):
        return 1
    os.chdir(crate.folder)
    plant = loaded("rt_plant", os.path.join(os.path.dirname(kept.RT.__file__), "rt-plant"))

    # the check with which a plant begins: its lines are read from standard output
    def check(*words):
        crate.out = sys.stderr
        said = subprocess.run([*kept.RATTLE, "check", *crate.words([]), *plant.rt.KEPT, "--progress"],
                              stdout=subprocess.PIPE, stderr=subprocess.STDOUT, text=True)
        print(said.stdout)
        return said.returncode

    plant.rt.main = check
    plant.rt.Crate = lambda *words, **more: crate
    plant.rt.root_above = lambda here: root
    return plant.main(*flags)


if __name__ == "__main__":
    sys.exit(main(sys.argv[1], sys.argv[2:]) if len(sys.argv) > 1 else __doc__)
