"""Adapters that put a guard into services that load pickles.

Each module imports its service only when it is used. docs/ADAPTERS.md has an example of each, and
lists what it guards and what it doesn't.
"""
