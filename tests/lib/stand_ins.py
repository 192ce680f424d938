"""What scripts of this folder share that run programs in a copy: others that stand in on a path, and what is copied."""

import os
import shutil


def put_command(path, *lines):
    """Makes a shell script of these lines, which can be run."""
    with open(path, "w", encoding="utf-8") as file:
        file.write("\n".join(["#!/bin/sh", *lines, ""]))
    os.chmod(path, 0o755)


def copy_unbuilt(folder, copy, *others):
    """Copies a folder without what was built in it, or is being built beside this, and without others by name."""
    built = ["out", "__pycache__", "*.so", "*.so.*", "*.h.*", "*.css.*", "target", "build", "dist", "*.egg-info"]
    shutil.copytree(folder, copy, ignore=shutil.ignore_patterns(*built, *others))
