#!/usr/bin/env python3
"""packaging/unpack_wheel.py SOURCES FOLDER: builds the wheel of the Python package whose pyproject.toml stands in SOURCES, and puts its files into FOLDER."""
import os, sys, tempfile, zipfile


def main():
    sources, folder = map(os.path.abspath, sys.argv[1:])
    sys.path.insert(0, f"{sources}/backend")
    import wheel_of_sources

    with tempfile.TemporaryDirectory() as room:
        with zipfile.ZipFile(f"{room}/{wheel_of_sources.build_wheel(room)}") as wheel:
            wheel.extractall(folder)


if __name__ == "__main__":
    main()
