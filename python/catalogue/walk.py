"""Finds the callables of a library that reach a sink, such as `exec` or `open`.

It reads sources and runs none of them. A callable reaches what its body names, and what that names
in turn, in any module that was read. Methods are found where their class is named too; what an
object of an unknown class does is not seen. A name that is judged harmless ends the way.
"""

import ast
import builtins
from collections import defaultdict

BUILTINS = frozenset(dir(builtins))
_FUNCTIONS = (ast.FunctionDef, ast.AsyncFunctionDef)
_MADE_BY = ("__new__", "__init__", "__setstate__", "__call__", "__init_subclass__")
"""The methods that making an object of a class, or restoring its state, may call."""


class Module:
    """What the source of a module says: the names that it binds, and what each body names.

    bound: the dotted name that each name of the module stands for.
    bodies: what each callable of the module names, by its own dotted name.
    bases: the base classes of each class.
    """

    def __init__(self, name, source, is_package):
        self.name, self._is_package = name, is_package
        self.bound, self.bodies, self.bases = {}, {}, {}
        self._bind(ast.parse(source).body)

    def _bind(self, body):
        for node in body:
            if isinstance(node, (ast.Import, ast.ImportFrom)):
                self.bound.update(self._imported(node))
            elif isinstance(node, _FUNCTIONS):
                self._add(node.name, self._names_in(node))
            elif isinstance(node, ast.ClassDef):
                self._add_class(node)
            elif isinstance(node, ast.Assign) and len(node.targets) == 1:
                target, value = node.targets[0], dotted(node.value)
                if isinstance(target, ast.Name) and value:
                    self.bound[target.id] = value
            for field in ("body", "orelse", "handlers", "finalbody"):
                if isinstance(node, (ast.If, ast.Try, ast.With, ast.ExceptHandler)):
                    self._bind(getattr(node, field, []))

    def _imported(self, node):
        if isinstance(node, ast.Import):
            for it in node.names:
                yield (it.asname or it.name.partition(".")[0], f"={it.name}" if it.asname
                       else f"={it.name.partition('.')[0]}")
            return
        front = node.module or ""
        if node.level:
            parts = self.name.split(".")
            parts = parts[: len(parts) - node.level + self._is_package]
            front = ".".join([*parts, *filter(None, [node.module])])
        for it in node.names:
            yield (it.asname or it.name, f"={front}.{it.name}")

    def _add(self, name, names):
        self.bound[name] = f"={self.name}.{name}"
        self.bodies.setdefault(f"{self.name}.{name}", set()).update(names)

    def _add_class(self, node, front=""):
        name = front + node.name
        made = self.bodies.setdefault(f"{self.name}.{name}", set())
        if not front:
            self.bound[name] = f"={self.name}.{name}"
        self.bases[f"{self.name}.{name}"] = [it for it in map(dotted, node.bases) if it]
        self._add_members(node.body, name, made)

    def _add_members(self, body, name, made):
        for inner in body:
            if isinstance(inner, ast.ClassDef):
                self._add_class(inner, f"{name}.")
            elif isinstance(inner, _FUNCTIONS):
                method = f"{self.name}.{name}.{inner.name}"
                self.bodies.setdefault(method, set()).update(self._names_in(inner, name))
                if inner.name in _MADE_BY:
                    made.add(f"={method}")
            elif isinstance(inner, ast.Assign) and dotted(inner.value):
                for target in inner.targets:
                    if isinstance(target, ast.Name):
                        self.bodies[f"{self.name}.{name}.{target.id}"] = {dotted(inner.value)}
            elif isinstance(inner, (ast.If, ast.Try)):
                for field in ("body", "orelse", "handlers", "finalbody"):
                    self._add_members(getattr(inner, field, []), name, made)
            elif isinstance(inner, ast.ExceptHandler):
                self._add_members(inner.body, name, made)

    def _names_in(self, function, owner=""):
        """What a body names: dotted names as they stand, those of its class after `=`, and the
        attributes of objects after a dot.
        """
        imported, found = {}, set()
        for node in ast.walk(function):
            if isinstance(node, (ast.Import, ast.ImportFrom)):
                imported.update(self._imported(node))
        own = _own_names(function) - set(imported)
        for node in _mentions(function):
            name = dotted(node)
            front, _, rest = name.partition(".")
            if front in ("self", "cls") and owner and rest:
                found.add(f"={self.name}.{owner}.{rest}")
            elif front in imported:
                found.add(f"{imported[front]}.{rest}".rstrip("."))
            elif name and front not in own:
                found.add(name)
            if isinstance(node, ast.Attribute):
                found.add(f".{node.attr}")
        return found.union(imported.values())


def _own_names(function):
    """The parameters of a function, and the names that it assigns."""
    given = {it.arg for it in ast.walk(function) if isinstance(it, ast.arg)}
    names = (it for it in ast.walk(function) if isinstance(it, ast.Name))
    return given.union(it.id for it in names if isinstance(it.ctx, ast.Store))


def _mentions(node):
    """The names and attributes in a body, without those of annotations, and without the classes
    that an object is compared with.
    """
    if isinstance(node, (ast.Name, ast.Attribute)):
        yield node
    if isinstance(node, ast.Call) and dotted(node.func) in ("isinstance", "issubclass"):
        yield from _mentions(node.args[0]) if node.args else ()
        return
    for field, value in ast.iter_fields(node):
        for inner in value if isinstance(value, list) else [value]:
            if isinstance(inner, ast.AST) and field not in ("annotation", "returns"):
                yield from _mentions(inner)


def dotted(node):
    """The dotted name that an expression is, or an empty string."""
    if isinstance(node, ast.Name):
        return node.id
    if isinstance(node, ast.Attribute):
        front = dotted(node.value)
        return f"{front}.{node.attr}" if front else ""
    return ""


class Walk:
    """All modules that were read, and what reaches what."""

    def __init__(self, modules):
        self._modules = {module.name: module for module in modules}
        self.callables = {}
        for module in modules:
            for name, names in module.bodies.items():
                self.callables[name] = self._named(module, names)
        self.aliases = dict(self._aliases())

    def _aliases(self):
        """Each name that a module binds to what is defined in another one."""
        for module in self._modules.values():
            for name in module.bound:
                meant = self.resolved(name, module)
                if meant and meant != f"{module.name}.{name}" and meant not in self._modules:
                    yield (f"{module.name}.{name}", meant)

    def _named(self, module, names):
        found = {self.resolved(it, module) for it in names if not it.startswith(".")}
        found.discard("")
        attributes = {it[1:] for it in names if it.startswith(".")}
        for name in list(found):  # an object of a class that is named has its methods
            if self._class_of(name):
                found.update(filter(None, (self._method(name, it) for it in attributes)))
        return found

    def _class_of(self, name):
        module = self._modules.get(name.rpartition(".")[0])
        return module if module is not None and name in module.bases else None

    def _method(self, owner, method):
        """The method of a class or of one of its bases, if it has one of the name."""
        module = self._class_of(owner)
        if f"{owner}.{method}" in module.bodies:
            return f"{owner}.{method}"
        return self._inherited(module, f"{owner[len(module.name) + 1 :]}.{method}", 0)

    def resolved(self, name, module=None, depth=0):
        """The name under which something is defined: imports and assignments are followed."""
        if depth > 20:
            return ""
        if not name.startswith("="):
            front, _, rest = name.partition(".")
            if front not in module.bound:
                return f"builtins.{name}" if front in BUILTINS else ""
            meant = module.bound[front]
            if not meant.startswith("="):
                if meant.partition(".")[0] == front:
                    return ""
                return self.resolved(f"{meant}.{rest}".rstrip("."), module, depth + 1)
            name = f"{meant}.{rest}".rstrip(".")
        name = name[1:]
        return self._followed(name, depth)

    def _followed(self, name, depth):
        parts = name.split(".")
        for at in range(len(parts) - 1, 0, -1):
            module = self._modules.get(".".join(parts[:at]))
            if module is None:
                continue
            if name in self._modules or name in module.bodies:
                return name
            rest = ".".join(parts[at:])
            meant = module.bound.get(parts[at])
            if meant in (None, f"={module.name}.{parts[at]}"):
                return self._inherited(module, rest, depth) or name
            return self.resolved(rest, module, depth + 1) or name
        return name

    def _inherited(self, module, rest, depth):
        """The method of a base class, if the class itself has none of the name."""
        owner, _, method = rest.rpartition(".")
        for base in module.bases.get(f"{module.name}.{owner}", ()):
            found = self.resolved(f"{base}.{method}", module, depth + 1)
            if found and found in self.callables_or_bodies():
                return found
        return ""

    def callables_or_bodies(self):
        """The names of everything that was read."""
        if not hasattr(self, "_all"):
            self._all = {it for module in self._modules.values() for it in module.bodies}
        return self._all

    def leading_to(self, sinks, ends, steps):
        """Each callable that leads to one of the sinks in so many steps, and the nearest sink. The
        way doesn't pass through a name at which it ends.
        """
        callers = defaultdict(list)
        for name in sorted(self.callables):
            for it in self.callables[name]:
                callers[it].append(name)
        found, reached = {}, [(sink, sink) for sink in sorted(sinks)]
        for _ in range(steps):
            after = []
            for name, sink in reached:
                for caller in callers[name]:
                    if caller not in found and not ends(caller):
                        found[caller] = sink
                        after.append((caller, sink))
            reached = after
        return sorted(found.items())
