"""Processor time of solvers on DIMACS files, by family: python3 tools/measure.py FOLDER LIMIT NAME=COMMAND..

LIMIT is in seconds of processor time; who needs more is counted with it. In COMMAND `FILE` stands for the file. It prints a row for
each file, and the sums of each family beside those of the first solver.
"""

import glob
import os
import resource
import subprocess
import sys


def run(words, limit):
    """Seconds and the answer."""
    preset = lambda: resource.setrlimit(resource.RLIMIT_CPU, (limit, limit + 1))
    with open(os.devnull, "w") as null:
        child = subprocess.Popen(words, stdout=null, stderr=null, preexec_fn=preset)
        _, status, usage = os.wait4(child.pid, 0)
    code = os.waitstatus_to_exitcode(status)
    answer = {10: "sat", 20: "unsat"}.get(code, "-")
    seconds = usage.ru_utime + usage.ru_stime
    return (seconds if answer != "-" else float(limit)), answer


def main(folder, limit, *commands):
    names = [c.split("=", 1)[0] for c in commands]
    words = [c.split("=", 1)[1].split() for c in commands]
    sums = {}
    print("file".ljust(16), *[n.rjust(15) for n in names])
    for path in sorted(glob.glob(os.path.join(folder, "*.cnf"))):
        name = os.path.basename(path)[:-4]
        row = [run([path if w == "FILE" else w for w in ws], int(limit)) for ws in words]
        print(name.ljust(16), *[f"{s:9.2f} {a:>5}" for s, a in row], flush=True)
        if len({a for _, a in row} - {"-"}) > 1:
            print("ANSWERS DIFFER")
        family = sums.setdefault(name.rsplit("-", 1)[0], [0.0] * len(row))
        for i, (s, _) in enumerate(row):
            family[i] += s
    for family, total in list(sums.items()) + [("all", [sum(t) for t in zip(*sums.values())])]:
        print(family.ljust(16), *[f"{t:9.2f} {t / max(total[0], 1e-9):4.1f}x" for t in total])


if __name__ == "__main__":
    main(*sys.argv[1:])
