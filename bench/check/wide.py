#!/usr/bin/env python3
"""Writes a folder of so many files of some 25 KB each, in which each class has few methods with long bodies that are accepted.

usage: wide.py FOLDER FILES
"""
import os
import sys

HEAD = """package wide;

public class Wide{n} {above}{{
    int size = {n}; long total; String title = "wide{n}"; int[] parts = new int[64];
    int step{n}(int by) {{ size += by; return size; }}
"""
BLOCK = """        for (int i{k} = 0; i{k} < parts.length; i{k}++) {{
            int sum{k} = parts[i{k}] * {k} + size - (i{k} << 2) / 3; long rest{k} = total & 0xFFL | sum{k};
            if (sum{k} > {k} && rest{k} != 0 || parts[i{k}] == sum{k}) {{ parts[i{k}] = sum{k} % 7; total += rest{k} >>> 1; }}
            else if (title.length() > sum{k}) {{ title = title + sum{k} + 'x'; continue; }} else {{ size -= step{n}(sum{k} - 1); }}
            while (sum{k} > 0) {{ sum{k} -= 3; if (sum{k} == {k}) break; all = (Object) title; }}
        }}
"""


def main():
    folder, count = sys.argv[1], int(sys.argv[2])
    place = f"{folder}/wide"
    os.makedirs(place)
    for n in range(count):
        text = HEAD.format(n=n, above=f"extends Wide{n - 1} " if n % 8 else "")
        for body in range(4):
            blocks = "".join(BLOCK.format(n=n, k=12 * body + k) for k in range(12))
            text += f"    Object run{body}x{n}() {{\n        Object all = null;\n{blocks}        return all;\n    }}\n"
        with open(f"{place}/Wide{n}.java", "w", encoding="utf-8") as out:
            out.write(text + "}\n")


main()
