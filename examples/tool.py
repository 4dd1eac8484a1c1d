"""The program that these scripts run: PKTOOL names it, or else it is the launcher."""
import os
import pathlib
import subprocess

LAUNCHER = pathlib.Path(__file__).resolve().parent.parent / "pktool"


def program() -> str:
    """Its path. It is started once: the launcher's first use prints a line of its own."""
    path = os.path.abspath(os.environ.get("PKTOOL", str(LAUNCHER)))
    subprocess.run([path, "--help"], stdout=subprocess.DEVNULL, check=True)
    return path
