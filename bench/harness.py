"""What all scripts in bench/ share: the program, a folder to work in, times, and figures that are kept and compared.

A script is `with harness.Bench(__doc__) as bench:` and then `bench.figure(name, value, unit)` for each thing that it measures.
Each takes --rounds N, --save FILE (keeps its figures there) and --saved FILE (compares them with kept ones).
"""
import argparse
import json
import os
import platform
import shutil
import subprocess
import sys
import tempfile
import time

TOP = os.path.dirname(os.path.dirname(os.path.abspath(__file__)))
PROGRAM = f"{TOP}/crates/ccfs_cli/out/ccfs_cli"


class Fails(Exception):
    """Why a bench ends without its figures."""


def need(command):
    if not shutil.which(command):
        raise Fails(f"{command} is missing")


def build():
    """The program, built where it must be. A failed build is an error, and no bench goes on."""
    ran = subprocess.run([f"{TOP}/ccfs"], stdout=subprocess.PIPE)
    if ran.returncode != 2 or not ran.stdout.startswith(b"usage: ccfs "):
        raise Fails("the program was not built, or doesn't print its usage line; no figure was taken")


class Ran:
    """A process that ended: its seconds, its greatest memory in MiB, and what it printed."""

    def __init__(self, words, folder, status=0, given=None):
        with tempfile.TemporaryFile() as out:
            begin = time.perf_counter()
            child = subprocess.Popen(words, cwd=folder, stdin=given or subprocess.DEVNULL, stdout=out, stderr=subprocess.STDOUT)
            _, code, used = os.wait4(child.pid, 0)
            self.seconds = time.perf_counter() - begin
            child.returncode = os.waitstatus_to_exitcode(code)
            self.memory = used.ru_maxrss / 1024
            out.seek(0)
            self.text = out.read().decode(errors="replace")
        if child.returncode != status:
            raise Fails(f"{' '.join(words)} ended with {child.returncode}, and not {status}: {self.text[-300:]}")


class Bench:
    """One run of a script: `work` is a folder of its own, removed at the end."""

    def __init__(self, about, rounds=5, needs_program=True, **more):
        parser = argparse.ArgumentParser(description=about, formatter_class=argparse.RawDescriptionHelpFormatter)
        parser.add_argument("--rounds", type=int, default=rounds)
        parser.add_argument("--save", metavar="FILE", help="keeps the figures in this file")
        parser.add_argument("--saved", metavar="FILE", help="compares with the figures in this file")
        parser.add_argument("--dir", help="where the images lie; the system's folder for temporary files if not given")
        for name, value in more.items():
            parser.add_argument(f"--{name}", type=type(value), default=value)
        self.given = parser.parse_args()
        self.rounds = self.given.rounds
        self.needs_program = needs_program
        self.figures = {}

    def __enter__(self):
        try:
            if self.needs_program:
                build()
        except Fails as why:
            self.stop(why)
        self.work = tempfile.mkdtemp(prefix="ccfs-bench-", dir=self.given.dir)
        return self

    def __exit__(self, kind, why, trace):
        shutil.rmtree(self.work, ignore_errors=True)
        if kind is Fails:
            self.stop(why)
        if kind is None:
            self.end()

    def stop(self, why):
        print(f"{os.path.basename(sys.argv[0])}: {why}", file=sys.stderr)
        sys.exit(1)

    def path(self, name):
        return f"{self.work}/{name}"

    def script(self, name, lines):
        """A script of these lines in the folder, by its path."""
        with open(self.path(name), "w", encoding="ascii") as it:
            it.write("\n".join(lines) + "\n")
        return self.path(name)

    def ccfs(self, *words, status=0):
        return Ran([PROGRAM, *words], self.work, status)

    def figure(self, name, values, unit):
        """Prints the median of what was measured, and the least and the greatest."""
        values = sorted(values if isinstance(values, list) else [values])
        middle = values[len(values) // 2]
        self.figures[f"{name}, {unit}"] = {"value": middle, "unit": unit}
        spread = f"  ({values[0]:.4g} to {values[-1]:.4g}, {len(values)} rounds)" if len(values) > 1 else ""
        print(f"{name}: {middle:.4g} {unit}{spread}", flush=True)

    def end(self):
        if self.given.saved:
            with open(self.given.saved, encoding="utf-8") as it:
                kept = json.load(it)
            for name, it in self.figures.items():
                was = kept["figures"].get(name)
                if was and was["value"]:
                    print(f"{name}: {it['value'] / was['value']:.2f} times that of {kept['when']}")
        if self.given.save:
            when = f"{time.strftime('%Y-%m-%d')} on {platform.node()}, {os.cpu_count()} processors"
            with open(self.given.save, "w", encoding="utf-8") as it:
                json.dump({"when": when, "figures": self.figures}, it, indent=1)
