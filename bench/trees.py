"""Trees of a given number of entries, and scripts of calls on them."""
import os
from typing import NamedTuple

ETC, RUN, USR = "/etc/systemd/system", "/run/systemd/system", "/usr/lib/systemd/system"
TARGETS = ["graphical.target", "multi-user.target"]
LINE = "Description=A service that does what it is for, and no more\n"
INSTALL = f"[Install]\nWantedBy={TARGETS[1]}\n"


class Tree(NamedTuple):
    """The entries as texts in random order, and names of units: those in /usr/lib, those that a
    target wants, those in /opt, and those that are masked."""

    entries: list
    units: list
    wanted: list
    apps: list
    masks: list


def names(what, count):
    return [f"{what}-{n:06}.service" for n in range(count)]


def tree(size, chance):
    """A tree of about `size` entries.

    Half of them are unit files of 200 to 4,000 bytes, each with WantedBy=multi-user.target: a
    quarter of the files are in /opt, the others in /usr/lib/systemd/system. The other half are
    masks, aliases, and links to units that another target wants.
    """
    units, apps = names("unit", size * 3 // 8 - len(TARGETS)), names("app", size // 8)
    masks, wanted = names("mask", size // 6), chance.sample(units, size // 6)
    aliases = names("alias", size // 2 - len(masks) - len(wanted))
    files = [f"{USR}/{name}" for name in TARGETS + units] + [f"/opt/{name}" for name in apps]
    links = [(f"{ETC}/{name}", "/dev/null") for name in masks]
    links += [(f"{ETC}/{name}", f"{USR}/{chance.choice(units)}") for name in aliases]
    links += [(f"{ETC}/{TARGETS[0]}.wants/{name}", f"{USR}/{name}") for name in wanted]
    entries = [f"L\t{path}\t{target}\n" for path, target in links]
    for path in files:
        length = chance.randint(200, 4000)
        text = (LINE * (length // len(LINE) + 1))[:length - len(INSTALL) - 1] + "\n" + INSTALL
        entries.append(f"F\t{length}\t{path}\n{text}\n")
    chance.shuffle(entries)
    return Tree(entries, units, wanted, apps, masks)


def write(path, entries, calls, operators=("alice",)):
    """Writes a script to a file: an inventory of these entries, and the calls, of which the
    operators make one each in turn."""
    with open(path, "w") as out:
        out.writelines(["unitadm-inventory 1\n", *entries, "end\n== calls\n"])
        out.writelines(f"{operators[n % len(operators)]} {call}\n" for n, call in enumerate(calls))


def lay(root, entries):
    """Makes the files and links of these entries below a directory."""
    for text in entries:
        kind, one, two = text.split("\n", 1)[0].split("\t")
        path = root + (two if kind == "F" else one)
        os.makedirs(os.path.dirname(path), exist_ok=True)
        if kind == "L":
            os.symlink(two, path)
        else:
            with open(path, "w") as out:
                out.write(text.split("\n", 1)[1][:int(one)])
