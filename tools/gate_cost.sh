#!/usr/bin/env bash
# Runs the gate from nothing and says what it costs, crate by crate: the processor seconds of the crate's proof,
# of its tests and of its must-fail edits, and the most memory in MiB that one process of each held. The last lines
# are the sums, the whole of the run, its time by the clock, and how the gate ended.
#     tools/gate_cost.sh                  the gate, `rt ci --anew`
#     tools/gate_cost.sh COMMAND WORD..   another command, as `rt must-fail NAME`, with a line for each edit too
# Times are read off the prover's processes five times a second; what a process did behind its last reading is
# missing, some hundredth of the whole. What the run prints goes to gate_cost.log in the folder for temporary files.
# Run it alone: on a machine with other work the processor seconds grow too.
set -eu
cd "$(dirname "$0")/.."
exec python3 - "$@" <<'END'
import glob, os, re, resource, subprocess, sys, tempfile, time

TICKS = os.sysconf("SC_CLK_TCK")
KINDS = ("proof", "tests", "edits")


def read(path):
    try:
        with open(path, "rb") as it:
            return it.read().decode(errors="replace")
    except OSError:
        return ""


def edits_of(crate):
    """The name, the file and the new text of each must-fail edit of a crate."""
    for path in sorted(glob.glob(f"crates/{crate}/must-fail/*.edit")):
        text = read(path)
        file, new = (re.search(f"^{word}: (.*)$", text, re.M) for word in ("file", "new"))
        if file and new:
            yield os.path.basename(path)[:-5], file[1].strip(), new[1].strip()


def edit_at(crate, room):
    """The edit that the copy of a crate in this folder has."""
    for name, file, new in edits_of(crate):
        if new in read(f"{room}/{file}") and new not in read(f"crates/{crate}/{file}"):
            return name
    return "?"


class Process:
    """One process of the prover: its crate, what it does for it, and what it used so far."""

    def __init__(self, pid, words):
        self.crate = words[words.index("--crate-name") + 1]
        try:
            room = os.readlink(f"/proc/{pid}/cwd")
        except OSError:
            room = ""
        self.edit = edit_at(self.crate, room) if "/rt-edit-" in room else None
        self.kind = "edits" if self.edit else "tests" if "--test" in words else "proof"
        self.seconds, self.mib = 0.0, 0

    def update(self, pid):
        times = read(f"/proc/{pid}/stat").rpartition(")")[2].split()
        if len(times) > 12:
            self.seconds = max(self.seconds, (int(times[11]) + int(times[12])) / TICKS)
        peak = re.search(r"VmHWM:\s+(\d+)", read(f"/proc/{pid}/status"))
        if peak:
            self.mib = max(self.mib, int(peak[1]) // 1024)


def look(found):
    """Reads all processes of the prover that run now."""
    for pid in filter(str.isdigit, os.listdir("/proc")):
        begun = read(f"/proc/{pid}/stat").rpartition(")")[2].split()
        if len(begun) < 20:
            continue
        key = pid, begun[19]
        if key not in found:
            words = read(f"/proc/{pid}/cmdline").split("\0")
            if os.path.basename(words[0]) != "rattle" or "--crate-name" not in words:
                continue
            found[key] = Process(pid, words)
        found[key].update(pid)


def line(label, cells):
    print(f"{label:24}" + "".join(f"{cell:>9}" for cell in cells))


command = sys.argv[1:] or ["rt", "ci", "--anew"]
found, began = {}, time.time()
log = os.path.join(tempfile.gettempdir(), "gate_cost.log")
with open(log, "w") as out:
    run = subprocess.Popen(command, stdin=subprocess.DEVNULL, stdout=out, stderr=subprocess.STDOUT)
    while run.poll() is None:
        look(found)
        time.sleep(0.2)
wall = time.time() - began
used = resource.getrusage(resource.RUSAGE_CHILDREN)

cost = {}
for it in found.values():
    seconds, mib = cost.get((it.crate, it.kind), (0.0, 0))
    cost[it.crate, it.kind] = seconds + it.seconds, max(mib, it.mib)
line("crate", [word for kind in KINDS for word in (kind, "MiB")])
listed = re.findall(r"^([a-z0-9_]+)\b.*:", read("crates.txt"), re.M)
for crate in listed + sorted({it.crate for it in found.values()} - set(listed)):
    rows = [cost.get((crate, kind), (0.0, 0)) for kind in KINDS]
    if any(seconds for seconds, _ in rows):
        line(crate, [cell for seconds, mib in rows for cell in (f"{seconds:.0f}", mib)])
sums = [sum(seconds for (_, of), (seconds, _) in cost.items() if of == kind) for kind in KINDS]
line("all, seconds", [cell for it in sums for cell in (f"{it:.0f}", "")])
line("all, minutes", [cell for it in sums for cell in (f"{it / 60:.1f}", "")])
whole = (used.ru_utime + used.ru_stime) / 60
print(f"the whole: {whole:.1f} minutes of {os.cpu_count()} processors, {wall / 60:.1f} minutes by the clock")
if sys.argv[1:]:
    for edit in sorted({(it.crate, it.edit) for it in found.values() if it.edit}):
        seconds = sum(it.seconds for it in found.values() if (it.crate, it.edit) == edit)
        print(f"{seconds:7.0f} s  {edit[0]}/{edit[1]}")
ends = read(log).strip().splitlines()
print(ends[-1] if ends else "no output")
sys.exit(run.returncode)
END
