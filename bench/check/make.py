#!/usr/bin/env python3
"""Writes a folder of so many packages of mixed classes: packages, imports, headers, members and bodies that are accepted.

usage: make.py FOLDER PACKAGES
"""
import os
import sys

PART = """package p{n};

import p{m}.Base{m};
import p{m}.Shape{m};

public class Base{n} extends {above} implements Shape{n} {{
    protected int size = {n};
    private final String[] names = {{ "a", "b" }};
    public Base{n}() {{ size += 1; }}
    public int area{n}(int scale) {{ int sum = 0; for (int i = 0; i < names.length; i++) {{ sum += scale * i + size; }} return sum; }}
    public String title{n}() {{ return names[0] + area{n}(2) + (size > 3 ? "x" : names[1]); }}
    public static class Part{n} {{
        int depth; Part{n} next;
        int walk(Part{n} from) {{ int steps = 0; while (from != null && steps < 100) {{ from = from.next; steps++; }} return steps; }}
        boolean same(Object o) {{ return o instanceof Part{n} && ((Part{n}) o).depth == depth; }}
    }}
    class Inner{n} {{ long twice() {{ long all = size; all <<= 1; return all + new Part{n}().walk(null); }} }}
    Shape{m} other(Base{m} given) {{ if (given == null) return null; else return given; }}
}}
"""
SHAPE = """package p{n};

public interface Shape{n} {{ int SIDES{n} = {n} + 1; int area{n}(int scale); String title{n}(); }}
"""


def main():
    folder, count = sys.argv[1], int(sys.argv[2])
    for n in range(count):
        m = (n + count - 1) % count if n % 8 == 0 else n - 1
        above = "Object" if n % 8 == 0 else f"Base{m}"
        place = f"{folder}/p{n}"
        os.makedirs(place)
        with open(f"{place}/Base{n}.java", "w", encoding="utf-8") as out:
            out.write(PART.format(n=n, m=m, above=above))
        with open(f"{place}/Shape{n}.java", "w", encoding="utf-8") as out:
            out.write(SHAPE.format(n=n))


main()
