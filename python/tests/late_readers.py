"""Readers that `everywhere.py` binds after a guard was installed."""

import io
import pickle
from pickle import loads

__all__ = ["by_python_subclass", "by_subclass", "loads"]


class Unpickler(pickle.Unpickler):
    pass


class PythonUnpickler(pickle._Unpickler):
    dispatch = dict(pickle._Unpickler.dispatch)


def by_subclass(data):
    return Unpickler(io.BytesIO(data)).load()


def by_python_subclass(data):
    return PythonUnpickler(io.BytesIO(data)).load()
