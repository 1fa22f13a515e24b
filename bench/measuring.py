"""What the scripts of this folder share: runs of the built program with their times, and tables that are kept as CSV."""

import csv
import os
import re
import resource
import subprocess
import time
from datetime import datetime, timezone
from pathlib import Path

TOP = Path(__file__).resolve().parent.parent
PROGRAM = str(TOP / "crates/popqc/out/popqc")
DATA = TOP / "bench/data"


def machine():
    """when, where and beside what a row was measured"""
    name = re.search(r"^model name\s*:\s*(.*)$", Path("/proc/cpuinfo").read_text(encoding="utf-8"), re.M)
    return {
        "date": datetime.now(timezone.utc).strftime("%Y-%m-%d"),
        "processor": name[1] if name else "unknown",
        "processors": os.cpu_count(),
        "load": f"{os.getloadavg()[0]:.1f}",
    }


def run(program, words, text="", times=1):
    """what the program writes, its report as numbers, and the least seconds of so many runs, of the clock and of the processors"""
    seconds = []
    for _ in range(times):
        start, used = time.perf_counter(), processor_seconds()
        ran = subprocess.run([program, *map(str, words)], input=text, capture_output=True, text=True, check=True)
        seconds.append((time.perf_counter() - start, processor_seconds() - used))
    by_clock, by_processors = map(min, zip(*seconds))
    return ran.stdout, report_of(ran.stdout), {"seconds": f"{by_clock:.4f}", "processor_seconds": f"{by_processors:.4f}"}


def processor_seconds():
    used = resource.getrusage(resource.RUSAGE_CHILDREN)
    return used.ru_utime + used.ru_stime


def report_of(text):
    found = re.findall(r"^// ([a-z ]+?) (\d+)(?: (\d+))?$", text, re.M)
    report = {name.replace(" ", "_"): int(number) for name, number, _ in found}
    report["gates_left"] = next((int(left) for name, _, left in found if name == "gates"), None)
    return report


def write_table(name, rows):
    DATA.mkdir(exist_ok=True)
    with open(DATA / f"{name}.csv", "w", newline="", encoding="utf-8") as file:
        table = csv.DictWriter(file, rows[0].keys(), lineterminator="\n")
        table.writeheader()
        table.writerows(rows)


def read_table(name):
    with open(DATA / f"{name}.csv", newline="", encoding="utf-8") as file:
        return list(csv.DictReader(file))
