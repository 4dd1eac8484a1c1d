#!/usr/bin/env python3
"""Puts the files of a folder into an archive, always in the same bytes: corpus.py ARCHIVE FOLDER"""

import pathlib
import sys
import zipfile


def main():
    archive, folder = map(pathlib.Path, sys.argv[1:])
    with zipfile.ZipFile(archive, "w", zipfile.ZIP_DEFLATED) as made:
        for path in sorted(folder.iterdir()):
            made.writestr(zipfile.ZipInfo(path.name), path.read_bytes(), zipfile.ZIP_DEFLATED)


if __name__ == "__main__":
    main()
