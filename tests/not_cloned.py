#!/usr/bin/env python3
"""Shows that values which must stay single cannot be cloned: a program that clones each of them must not compile.

    not_cloned.py

The crates are copied to a folder of their own, with a crate that wants `Clone` of each type. It has to be refused just at these types,
and not at one that can be cloned. Nothing is proved; `rt try` compiles it. A must-fail edit cannot show this, since a wrong body
that does not compile tells nothing of a contract.
"""

import os
import re
import shutil
import subprocess
import sys
import tempfile

from lib import usage

TOP = os.path.join(os.path.dirname(os.path.abspath(__file__)), "..")
SINGLE = {
    "memory_pool": ["Berth"],
    "sandbox_states": ["Admitted", "Answer", "Finished", "Sandbox", "Verdict"],
    "wasi_calls": ["Reply", "Streams"],
}
CLONED = {"wasm_ops": ["Trap"]}
REFUSAL = re.compile(r"src/main\.rt:\d+:\d+: error\[unsatisfied-bound\]: the trait bound `(\w+): Clone` is not satisfied")


def libraries():
    """What each crate stands on, by crates.txt."""
    with open(os.path.join(TOP, "crates.txt"), encoding="utf-8") as file:
        lines = [line.split("#")[0].strip() for line in file]
    pairs = [line.split(":") for line in lines if line]
    return {name.split()[0]: below.split() for name, below in pairs}


def all_below(name, known):
    below = {name} if name in known else set()
    for other in known.get(name, []):
        below |= all_below(other, known)
    return below


def program(kinds):
    imports = "".join("use %s::{%s};\n" % (crate, ", ".join(types)) for crate, types in sorted(kinds.items()))
    wants = "".join("fn want_%s(value: &%s) {\n    want_clone(value)\n}\n" % (name.lower(), name) for types in kinds.values() for name in types)
    main = "fn main(rt: HostRuntime) -> io::Result<()> {\n    println!(rt; \"cloned\")\n}\n"
    return "#![tactic(auto)]\n\n" + imports + "use std::io;\n\nfn want_clone<T: Clone>(_value: &T) {}\n\n" + wants + "\n" + main


def tried(folder, known):
    """What `rt` says of a program that wants to clone all of them."""
    kinds = {**SINGLE, **CLONED}
    below = sorted(set().union(*(all_below(crate, known) for crate in kinds)))
    crates = os.path.join(folder, "crates")
    os.makedirs(os.path.join(crates, "cloning", "src"))
    for name in below:
        for part in ("src", "specs", "proofs"):
            if os.path.isdir(os.path.join(TOP, "crates", name, part)):
                shutil.copytree(os.path.join(TOP, "crates", name, part), os.path.join(crates, name, part))
    with open(os.path.join(folder, "crates.txt"), "w", encoding="utf-8") as file:
        file.write("".join("%s: %s\n" % (name, " ".join(known[name])) for name in below) + "cloning: %s\n" % " ".join(sorted(kinds)))
    with open(os.path.join(crates, "cloning", "src", "main.rt"), "w", encoding="utf-8") as file:
        file.write(program(kinds))
    done = subprocess.run(["rt", "try"], cwd=os.path.join(crates, "cloning"), stdout=subprocess.PIPE, stderr=subprocess.STDOUT, timeout=600)
    return done.stdout.decode()


def main(words):
    usage.none(words, __doc__)
    known = libraries()
    with tempfile.TemporaryDirectory() as folder:
        said = tried(folder, known)
    wanted = sorted(name for types in SINGLE.values() for name in types)
    lines = [line for line in said.splitlines() if "error" in line]
    refused = sorted(match.group(1) for match in map(REFUSAL.search, lines) if match)
    if refused != wanted or len(lines) != len(wanted):
        print("not_cloned: wanted a refusal of %s alone, got:\n%s" % (", ".join(wanted), said))
        return 1
    print("not_cloned: none of %s can be cloned" % ", ".join(wanted))
    return 0


if __name__ == "__main__":
    sys.exit(main(sys.argv[1:]))
