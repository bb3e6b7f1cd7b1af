#!/usr/bin/env python3
"""growth.py PROGRAM ROOT ROOM: what bench/growth.sh measures. The least of several runs counts."""
import math
import os
import subprocess
import sys

PROGRAM, ROOT, ROOM = sys.argv[1:4]
COUNTS = [1_000, 10_000, 100_000, 1_000_000]
COLORS = {"loading, no links": "#4477aa", "loading, links": "#228833", "fifteen rules": "#ee6677", "iterations": "#aa3377"}


def generate(count, *flags):
    with open(f"{ROOM}/delivery.json", "wb") as to:
        subprocess.run([sys.executable, f"{ROOT}/bench/generate.py", str(count), *flags], stdout=to, check=True)


def judge(*rules):
    """Seconds of processor time, and the most memory in MiB, of the best run."""
    best = (math.inf, math.inf)
    for _ in range(20 if os.path.getsize(f"{ROOM}/delivery.json") < 10_000_000 else 3):
        with open(f"{ROOM}/report", "wb") as to:
            child = subprocess.Popen(
                [PROGRAM, "judge", f"{ROOT}/examples/catalogue.json", f"{ROOM}/delivery.json", *rules], stdout=to
            )
            _, status, used = os.wait4(child.pid, 0)
        if os.waitstatus_to_exitcode(status) > 1:
            sys.exit(f"bench: judge ended with status {os.waitstatus_to_exitcode(status)}")
        best = min(best, (used.ru_utime + used.ru_stime, used.ru_maxrss / 1024))
    return best


def measured():
    """The measures by bench and count of objects."""
    found = {name: {} for name in COLORS}
    none, code = f"{ROOM}/none.rules", f"{ROOM}/iterations.code"
    open(none, "w").close()
    for count in COUNTS:
        generate(count)
        found["loading, no links"][count] = judge("--text", none)
        generate(count, "--links")
        found["loading, links"][count] = judge("--text", none)
        found["fifteen rules"][count] = judge("--text", f"{ROOT}/bench/judging.rules")
        subprocess.run(
            [sys.executable, f"{ROOT}/bench/iterations.py", str(count), code], stdout=subprocess.DEVNULL, check=True
        )
        found["iterations"][count] = judge(code)
    return found


def table(found):
    print("| | " + " | ".join(f"{count:,} objects" for count in COUNTS) + " |")
    print("|---|" + "---|" * len(COUNTS))
    for name, by_count in found.items():
        cells = [f"{seconds:.3g} s, {memory:.0f} MiB" for seconds, memory in by_count.values()]
        print(f"| {name} | " + " | ".join(cells) + " |")
    for name, by_count in found.items():
        (before, memory_before), (after, memory_after) = by_count[COUNTS[-2]], by_count[COUNTS[-1]]
        print(f"{name}: 10 times 100,000 objects take {after / before:.1f} times the time and "
              f"{memory_after / memory_before:.1f} times the memory")


def panel(found, which, title, left):
    """One plot, both of its axes logarithmic; `which` is 0 for seconds and 1 for memory."""
    values = [it[which] for by_count in found.values() for it in by_count.values()]
    low, high = math.floor(math.log10(min(values))), math.ceil(math.log10(max(values)))
    across = lambda count: left + 60 + (math.log10(count) - 3) * 90
    up = lambda value: 320 - (math.log10(value) - low) * 260 / (high - low)
    drawn = [f'<text x="{left + 195}" y="30" text-anchor="middle" font-weight="bold">{title}</text>']
    for power in range(low, high + 1):
        y = up(10**power)
        drawn.append(f'<line x1="{left + 60}" y1="{y:.1f}" x2="{left + 330}" y2="{y:.1f}" stroke="#ddd"/>')
        drawn.append(f'<text x="{left + 52}" y="{y + 4:.1f}" text-anchor="end">{10.0**power:g}</text>')
    for count in COUNTS:
        drawn.append(f'<text x="{across(count):.1f}" y="342" text-anchor="middle">{count:,}</text>')
    for name, by_count in found.items():
        points = " ".join(f"{across(count):.1f},{up(it[which]):.1f}" for count, it in by_count.items())
        drawn.append(f'<polyline points="{points}" fill="none" stroke="{COLORS[name]}" stroke-width="2"/>')
        for point in points.split():
            x, y = point.split(",")
            drawn.append(f'<circle cx="{x}" cy="{y}" r="3" fill="{COLORS[name]}"/>')
    return drawn


def draw(found):
    drawn = ['<svg xmlns="http://www.w3.org/2000/svg" width="740" height="400" font-family="sans-serif" font-size="12">',
             '<rect width="740" height="400" fill="white"/>']
    drawn += panel(found, 0, "seconds of processor time, by objects", 0)
    drawn += panel(found, 1, "peak memory in MiB, by objects", 370)
    for at, name in enumerate(COLORS):
        drawn.append(f'<rect x="{60 + at * 165}" y="366" width="14" height="4" fill="{COLORS[name]}"/>')
        drawn.append(f'<text x="{80 + at * 165}" y="373">{name}</text>')
    with open(f"{ROOT}/docs/growth.svg", "w", encoding="utf-8") as to:
        to.write("\n".join([*drawn, "</svg>"]) + "\n")


def main():
    found = measured()
    table(found)
    draw(found)


main()
