"""The definitions that some modules rest on, copied alone, without code and laws, so that rt computes with them in seconds."""
import os
import re
import subprocess

ROOT = os.path.dirname(os.path.dirname(os.path.abspath(__file__)))


def depends():
    """Each crate of crates.txt and what it depends on, in order."""
    with open(os.path.join(ROOT, "crates.txt")) as file:
        return dict((name.split()[0], names.split()) for name, names in (line.split(":") for line in file if line.strip()))


DEPENDS = depends()
CRATES = {name: " ".join(DEPENDS[name]) for name in DEPENDS["examples"]}


def read(path):
    with open(path) as file:
        return file.read()


def write(path, text):
    os.makedirs(os.path.dirname(path), exist_ok=True)
    with open(path, "w") as file:
        file.write(text)


def source(crate, part, module):
    return os.path.join(ROOT, "crates", crate, part, module + ".antt")


def declared(crate, part):
    """The modules that Lib.antt declares, in order."""
    path = source(crate, part, "Lib")
    return re.findall(r"mod (\w+)", read(path)) if os.path.exists(path) else []


def named(text):
    """The modules of this repository that a module cites, each as crate, specs or proofs, and name."""
    return [found for found in re.findall(r"Rattle\.(\w+)\.(specs|proofs)\.(\w+)", text) if found[0] in DEPENDS]


def closure(roots):
    """The texts of the modules named and of all that they rest on."""
    texts, waiting = {}, list(roots)
    while waiting:
        module = waiting.pop()
        if module not in texts:
            texts[module] = read(source(*module))
            waiting += named(texts[module])
    return texts


def lay(place, texts, above):
    """A repository of the texts alone; `above` names a further crate and what it depends on."""
    crates = {**CRATES, **above}
    for crate in crates:
        write(os.path.join(place, "crates", crate, "src", "lib.rt"), "// Definitions alone.\n\n#![tactic(auto)]\n")
        for part in ("specs", "proofs"):
            modules = [m for c, p, m in texts if (c, p) == (crate, part)]
            order = declared(crate, part)
            modules.sort(key=lambda m: order.index(m) if m in order else len(order))
            for module in modules:
                write(os.path.join(place, "crates", crate, part, module + ".antt"), texts[crate, part, module])
            if modules or part == "specs":
                write(os.path.join(place, "crates", crate, part, "Lib.antt"), "".join("pub mod %s\n" % m for m in modules))
    write(os.path.join(place, "crates.txt"), "".join("%s: %s\n" % row for row in crates.items()))


def check(place, crate):
    """rt check in the crate's folder: its status and what it said."""
    done = subprocess.run(["rt", "check"], cwd=os.path.join(place, "crates", crate), stdout=subprocess.PIPE, stderr=subprocess.STDOUT, text=True, check=False)
    return done.returncode, done.stdout
