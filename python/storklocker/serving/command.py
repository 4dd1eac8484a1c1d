"""The command `storklocker serve`."""

from __future__ import annotations

import argparse
import sys

from .settings import add_options

_FAULT = 2


def add_command(commands: "argparse._SubParsersAction[argparse.ArgumentParser]") -> None:
    """Adds the command to a parser."""
    it = commands.add_parser(
        "serve",
        help="answers requests for verdicts, over HTTP and clamd's protocol",
        description="Answers over HTTP, or by clamd's protocol, whether a guard with a list loads"
        " the bytes of a request.",
    )
    add_options(it)
    it.set_defaults(run=run)


def run(asked: argparse.Namespace) -> int:
    """Serves up to a signal."""
    try:
        import aiohttp  # noqa: F401
    except ImportError:
        why = "serve needs aiohttp, which is not installed: pip install 'storklocker[serve]'"
        print(f"storklocker: {why}", file=sys.stderr)
        return _FAULT
    from .daemon import run as run_daemon  # it needs aiohttp

    return run_daemon(asked)
