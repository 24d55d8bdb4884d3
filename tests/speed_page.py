"""Writes the figures of docs/SPEED.md, between the comments of the page, for tests/speed."""

import functools
import os
import pathlib
import re
import subprocess
import sys
import textwrap

TOP = pathlib.Path(__file__).resolve().parents[1]
PAGE = TOP / "docs/SPEED.md"
REGISTRY = pathlib.Path(os.environ.get("REGISTRY", "/usr/share/cargo/registry"))
PYTHON = os.environ.get("PYTHON", sys.executable)
CC = os.environ.get("CC", "cc").split()
CRATES = ("time", "chrono", "chrono-tz")
# The peers of each section, and how each prints its version.
PEERS = {
    "python": ("datetime",), "columns": ("NumPy", "pandas"), "caldate": ("dateutils", "GNU date", "Miller"),
    "c": ("glibc",), "rust": CRATES, "rules": ("libical",), "python_rules": ("dateutil",),
}
MEASURED = {peer for peers in PEERS.values() for peer in peers}
VERSIONS = {
    "datetime": [PYTHON, "--version"], "glibc": ["getconf", "GNU_LIBC_VERSION"], "libical": ["pkg-config", "--modversion", "libical"],
    **{name: [PYTHON, "-c", f"import {name.lower()}; print({name.lower()}.__version__)"] for name in ("NumPy", "pandas", "dateutil")},
    "dateutils": ["dateutils.dconv", "--version"], "GNU date": ["date", "--version"], "Miller": ["mlr", "--version"],
    "rustc": ["rustc", "--version"], "cc": [*CC, "--version"],
}


@functools.cache
def version_of(name):
    """Returns the version of a peer or a compiler, or an empty string if it isn't installed."""
    if name in CRATES:
        return max((folder.name[len(name) + 1:] for folder in REGISTRY.glob(f"{name}-[0-9]*")), default="")
    try:
        printed = subprocess.run(VERSIONS[name], check=True, stdout=subprocess.PIPE, stderr=subprocess.DEVNULL, text=True).stdout
    except (OSError, subprocess.CalledProcessError):
        return ""
    return re.findall(r"(?<![\w.])v?(\d+(?:\.\d+)+)", printed.splitlines()[0])[-1]


def label(peer):
    return f"{peer} {version_of(peer)}".strip()


def code(task):
    return task if task.startswith(("a ", "an ")) else f"`{task}`"


def ratios_of(rows):
    """Returns the ratios, rounded, with their tasks, by the groups and peers in the order of PEERS."""
    found = {}
    for section, peers in PEERS.items():
        for row in rows:
            for peer in peers if row.section == section else ():
                if peer in row.times:
                    ratio = round(row.times[peer] / row.times["here"], 2)
                    found.setdefault((row.group, peer), []).append((ratio, row.task))
    return found


def shown(ratio):
    return f"{ratio:.0f}" if ratio >= 9.95 else f"{ratio:.1f}"


def span(ratios):
    low, high = shown(min(ratios)), shown(max(ratios))
    return low if low == high else f"{low} to {high}"


def faster(found):
    """The tasks with a ratio from 1 up, and the peers that aren't installed."""
    lines = ["| Tasks | Beside | Ratio | As fast or faster here |", "|---|---|---|---|"]
    for (group, peer), ratios in found.items():
        won = [ratio for ratio, _ in ratios if ratio >= 1]
        if won:
            lines.append(f"| {group} | {label(peer)} | {span(won)} | {len(won)}/{len(ratios)} |")
    for peer in sorted(peer for peer in MEASURED if not version_of(peer)):
        lines.append(f"| all tasks | {peer} | left out, not installed | - |")
    return lines


def slower(found):
    """The tasks with a ratio below 1."""
    lines = ["| Tasks | Beside | Ratios |", "|---|---|---|"]
    for (group, peer), ratios in found.items():
        lost = [f"{code(task)} {ratio:.2f}" for ratio, task in sorted(ratios) if ratio < 1]
        if lost:
            lines.append(f"| {group} | {peer} | {', '.join(lost)} |")
    return lines


def nanoseconds(rows, section):
    """The times of a section, a line for each task, without those beside `time` only, for which ratios are enough."""
    chosen = [row for row in rows if row.section == section and (section == "calls" or row.times.keys() - {"here", "time"})]
    peers = ["inlined", "a row"] if section == "calls" else PEERS[section]
    titles = ["here", *(peer if section == "calls" else label(peer) for peer in peers)]
    width = max((len(row.task) for row in chosen), default=0)
    lines = ["```text", " " * width + "".join(f"  {title:>8}" for title in titles)]
    for row in chosen:
        cells = [f"{row.times[who]:.1f}" if who in row.times else "" if who not in MEASURED or version_of(who) else "left out"
            for who in ["here", *peers]]
        lines.append((f"{row.task:{width}}" + "".join(f"  {cell:>{max(8, len(title))}}" for cell, title in zip(cells, titles))).rstrip())
    return [*lines, "```"]


def compilers():
    text = (f"rustc {version_of('rustc')} compiled the library for C, the crate and `caldate`, by Cargo, and {CC[0]} {version_of('cc')} the "
        f"loops in C and the client for Python, with `-O2`. The machine is {os.uname().machine}, with {os.uname().sysname}.")
    return textwrap.wrap(text, 100)


def write(rows):
    """Writes the figures into the page."""
    found = ratios_of(rows)
    parts = {"faster": faster(found), "slower": slower(found), "compilers": compilers(),
        **{section: nanoseconds(rows, section) for section in ("calls", *PEERS)}}
    page = PAGE.read_text(encoding="utf-8")
    for name, lines in parts.items():
        page, count = re.subn(f"(?s)(<!--speed:{name}-->\n).*?(<!--end-->)",
            lambda old, lines=lines: old[1] + "\n" + "\n".join(lines) + "\n\n" + old[2], page)
        if count != 1:
            sys.exit(f"speed: docs/SPEED.md has {count} places for: {name}")
    PAGE.write_text(page, encoding="utf-8")
