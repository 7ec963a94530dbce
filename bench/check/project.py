"""Writes the made project of so many classes into a folder: the sources that `gen` checks without a tree."""
import os
import sys

top, count = sys.argv[1], int(sys.argv[2])
os.makedirs(f"{top}/g")
for i in range(count):
    above = f"extends C{i // 2} " if i else ""
    with open(f"{top}/g/C{i}.java", "w") as file:
        file.write(f"package g; class C{i} {above}{{ int f{i}; int m{i}() {{ return f{i // 2} + 1; }} }}")
