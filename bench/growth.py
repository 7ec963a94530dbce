"""Prints how the time of `scopecheck check` grows from a folder to one of twice its size: growth.py PROGRAM FOLDER MOST NAME..

For each NAME the folders are FOLDER/NAME/half and FOLDER/NAME/whole. Each time is the least of five runs. Where what is read grows by a factor
F by itself, the NAME is written NAME=F, and the growth is divided by F. Ends with status 1 where some growth is more than MOST.
"""
import subprocess, sys, time

program, folder, most = sys.argv[1], sys.argv[2], float(sys.argv[3])


def least(path):
    best = None
    for _ in range(5):
        begun = time.monotonic()
        subprocess.run([program, "check", path], check=True, stdout=subprocess.DEVNULL)
        taken = time.monotonic() - begun
        best = taken if best is None else min(best, taken)
    return best


worst = 0
for word in sys.argv[4:]:
    name, _, factor = word.partition("=")
    half, whole = least(f"{folder}/{name}/half"), least(f"{folder}/{name}/whole")
    growth = whole / half / float(factor or 1)
    by = f" beside {factor} by what is read" if factor else ""
    print(f"{name}: {half:.2f} s for the half, {whole:.2f} s for the whole: growth {growth:.2f}{by} (at most {most})")
    worst = max(worst, growth)
sys.exit(worst > most)
