#!/usr/bin/env python3
"""packaging/python_folder.py PREFIX: the folder below PREFIX in which this python3 looks for packages, as a path from PREFIX.

Where it looks in none, the folder that it would look in if it were installed there is told, and on standard error what to set.
"""
import os, sys, sysconfig


def main():
    prefix = sys.argv[1]
    places = [os.path.relpath(it, prefix) for it in sys.path if it.endswith("-packages")]
    found = [it for it in places if it.startswith("lib/")]
    if found:
        return print(found[0])
    folder = "lib/python3/dist-packages" if prefix == "/usr" else f"lib/python{sysconfig.get_python_version()}/site-packages"
    print(f"install: python3 looks in no folder below {prefix}: set PYTHONPATH={prefix}/{folder}", file=sys.stderr)
    print(folder)


if __name__ == "__main__":
    main()
