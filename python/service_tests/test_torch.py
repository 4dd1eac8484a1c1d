"""PyTorch's checkpoints behind the guard, loaded with PyTorch."""

import io
import pickle
import pickletools
import zipfile

import common
import storklocker
import storklocker.substitutes
from storklocker import lists
from storklocker.metrics import CountingGuard
from test_arrays import zipped

NEEDS = ("torch",)


def run():
    """The test."""
    guard = CountingGuard(lists.TORCH_TENSORS | storklocker.AllowList(common.LISTED))
    try_good(guard)
    try_kinds(guard)
    try_hostile(guard)
    try_legacy(guard)
    try_other_names()
    try_storages(guard)
    try_bytes()
    try_foreseen(guard)
    common.nothing_ran()


def try_good(guard):
    """The state dicts of models."""
    import torch

    for number in range(common.GOOD):
        layers = [torch.nn.Linear(3, 2), torch.nn.BatchNorm1d(2), torch.nn.Embedding(4, 2)]
        state = layers[number % len(layers)].state_dict()
        loaded = loaded_again(state, guard, 2 + number % 4)
        assert list(loaded) == list(state) and type(loaded) is type(state)
        assert all(torch.equal(loaded[key], state[key]) for key in state)


def try_kinds(guard):
    """Each element type, a view of another tensor's storage, and a parameter."""
    import torch

    words = (
        "bfloat16 bool uint8 int8 float64 float32 float16 int32 int64 int16 complex64 complex128"
    )
    for word in words.split():
        plain = torch.ones(3, 2).to(getattr(torch, word))
        state = {"plain": plain, "view": plain[1:], "fixed": torch.nn.Parameter(torch.ones(2))}
        loaded = loaded_again(state, guard)
        assert loaded["plain"].dtype == plain.dtype, word
        assert all(torch.equal(loaded[key], state[key]) for key in state), word
        loaded["plain"][1, 0] = 0
        assert not loaded["view"][0, 0], "they no longer share a storage"


def try_foreseen(guard):
    """What `scan --allow` says of what the guard loads, and of a parameter of no tensor."""
    import torch

    from storklocker.contrib.torch import load_torch
    from storklocker.scanning.judging import Question, reports_of

    def word(data):
        question = Question(lists.TORCH_TENSORS | storklocker.AllowList(common.LISTED))
        return [it.status.value for it in reports_of("file", io.BytesIO(data), question)][0]

    state = torch.nn.Linear(3, 2).state_dict()
    state["fixed"] = torch.nn.Parameter(torch.ones(2))
    assert word(saved(state)) == "accepted"
    assert torch.equal(loaded_again(state, guard)["fixed"], state["fixed"])
    made = b"\x80\x02ctorch._utils\n_rebuild_parameter\n"
    made += b"K\x01\x88ccollections\nOrderedDict\n)R\x87R."
    with zipfile.ZipFile(io.BytesIO(saved([]))) as archive:
        members = {name: archive.read(name) for name in archive.namelist()}
    (pickled,) = [name for name in members if name.endswith("/data.pkl")]
    data = zipped({**members, pickled: made}.items())
    assert word(data) == "undecided"
    assert "_rebuild_parameter" in common.raises(lambda: load_torch(data, guard))


def loaded_again(state, guard, protocol=2, is_zip=True):
    """The value that `torch.save` wrote, through the guard."""
    from storklocker.contrib.torch import load_torch

    return load_torch(saved(state, protocol, is_zip), guard, map_location="cpu")


def saved(state, protocol=2, is_zip=True):
    """What `torch.save` writes."""
    import torch

    made = io.BytesIO()
    torch.save(state, made, pickle_protocol=protocol, _use_new_zipfile_serialization=is_zip)
    return made.getvalue()


def try_legacy(guard):
    """The legacy format, and a hostile pickle in the place of each of its five."""
    import torch

    from storklocker.contrib.torch import load_torch

    state = {"a": torch.arange(6.0).reshape(2, 3), "b": torch.ones(2)[1:]}
    for protocol in range(2, 5):
        loaded = loaded_again(state, guard, protocol, is_zip=False)
        assert all(torch.equal(loaded[key], state[key]) for key in state)
    data, parts, at = saved(state, is_zip=False), [], 0
    for _ in range(5):
        stream = io.BytesIO(data[at:])
        end = at + [place for code, _, place in pickletools.genops(stream)][-1] + 1
        parts.append(data[at:end])
        at = end
    errors = (TypeError, RuntimeError, ValueError, AttributeError, AssertionError)
    for number in range(common.HOSTILE):
        for place in range(5):
            hostile = [*parts[:place], common.hostile(number), *parts[place + 1 :], data[at:]]
            common.raises(lambda: load_torch(b"".join(hostile), guard), *errors)
    with common.table() as control:
        made = {
            name: b"".join([*parts[:3], shape, *parts[4:], data[at:]])
            for name, shape in control.shapes.items()
        }
        for whole in made.values():
            common.raises(lambda: load_torch(whole, guard))
        control.shapes = made
        # (since 2.6 PyTorch takes few names by default)
        has_word = "weights_only" in (torch.load.__kwdefaults__ or ())
        words = {"weights_only": False} if has_word else {}
        control.runs_all(lambda whole: torch.load(io.BytesIO(whole), **words))


def try_other_names():
    """PyTorch imports `torch._tensor.Tensor` where a pickle has `torch.tensor.Tensor`."""
    import torch

    from storklocker.contrib.torch import load_torch

    data = saved({})
    with zipfile.ZipFile(io.BytesIO(data)) as archive:
        members = {name: archive.read(name) for name in archive.namelist()}
    (pickled,) = [name for name in members if name.endswith("/data.pkl")]
    renamed = zipped({**members, pickled: b"\x80\x02ctorch.tensor\nTensor\n."}.items())
    one = storklocker.AllowList([("torch.tensor", "Tensor")])
    if not hasattr(torch, "_tensor"):  # (before 1.9 it has the one name)
        assert load_torch(renamed, storklocker.Guard(one)).__name__ == "Tensor"
        return
    assert "torch._tensor.Tensor, which isn't" in common.raises(
        lambda: load_torch(renamed, storklocker.Guard(one))
    )
    both = one | storklocker.AllowList([("torch._tensor", "Tensor")])
    assert load_torch(renamed, storklocker.Guard(both)).__name__ == "Tensor"


def try_storages(guard):
    """A storage that is said to be larger than it is, and archives that readers see differently."""
    import torch

    from storklocker.contrib.torch import load_torch

    for is_zip in (True, False):
        data = saved({"a": torch.ones(2)}, is_zip=is_zip)
        larger = _with_larger_storage(data, is_zip)
        why = common.raises(lambda: load_torch(larger, guard), RuntimeError)
        assert "fits" in why or "wrong size" in why, why  # (the latter PyTorch 1.7 says itself)
    data = saved({"a": torch.ones(2)})
    with zipfile.ZipFile(io.BytesIO(data)) as archive:
        members = [(name, archive.read(name)) for name in archive.namelist()]
    packed = io.BytesIO()
    with zipfile.ZipFile(packed, "w", zipfile.ZIP_DEFLATED) as opened:
        for name, part in members:
            opened.writestr(name, part)
    for other in (packed.getvalue(), data + b"more"):
        common.raises(lambda: load_torch(other, guard))


def try_bytes():
    """A tensor outside of a checkpoint has its storage as bytes, a checkpoint in the legacy format.
    """
    import torch

    pair = ("torch.storage", "_load_from_bytes")
    inner = storklocker.Guard(lists.TORCH_TENSORS)
    said = {pair: storklocker.substitutes.load_from_bytes(inner)}
    plain = storklocker.AllowList([pair], dangerous=[pair])
    guards = [
        storklocker.Guard(lists.TORCH_TENSORS | storklocker.AllowList([pair], substitutes=said)),
        storklocker.Guard(lists.TORCH_TENSORS | plain),
    ]
    value = {"a": torch.arange(6.0).reshape(2, 3), "b": torch.nn.Parameter(torch.ones(2))}
    for guard in guards:
        found = guard.loads(pickle.dumps(value))
        assert all(torch.equal(found[key], value[key]) for key in value)
    with common.table() as control:
        made = {
            name: pickle.dumps(Bytes(torch.storage._load_from_bytes, _legacy(shape)))
            for name, shape in control.shapes.items()
        }
        for data in made.values():
            assert guards[0].check(data)
            common.raises(lambda: guards[0].loads(data))
        control.shapes = made
        control.runs_all(guards[1].loads)


class Bytes:
    """Pickles as a call with bytes."""

    def __init__(self, *call):
        self.call = call

    def __reduce__(self):
        return self.call[0], self.call[1:]


def _legacy(shape):
    """A checkpoint in the legacy format with this pickle for its object."""
    from torch import serialization

    front = (serialization.MAGIC_NUMBER, serialization.PROTOCOL_VERSION, {})
    return b"".join([*(pickle.dumps(it, 2) for it in front), shape, pickle.dumps([], 2)])


def _with_larger_storage(data, is_zip):
    """A checkpoint whose pickle says that its storage has 255 items."""
    old, new = b"K\x02tq", b"K\xfftq"
    if not is_zip:
        assert old in data or b"K\x02Nt" in data
        return data.replace(old, new).replace(b"K\x02Nt", b"K\xffNt")
    with zipfile.ZipFile(io.BytesIO(data)) as archive:
        members = [(name, archive.read(name)) for name in archive.namelist()]
    changed = [(name, part.replace(old, new)) for name, part in members]
    assert changed != members
    return zipped(changed)


def try_hostile(guard):
    """A hostile pickle in the place of the checkpoint's, and beside it."""
    import torch

    from storklocker.contrib.torch import load_torch

    made = io.BytesIO()
    torch.save({"weight": torch.ones(2)}, made)
    with zipfile.ZipFile(made) as archive:
        members = {name: archive.read(name) for name in archive.namelist()}
    (pickled,) = [name for name in members if name.endswith("/data.pkl")]
    guard.counts = type(guard.counts)()
    for number in range(common.HOSTILE):
        replaced = zipped({**members, pickled: common.hostile(number)}.items())
        common.raises(lambda: load_torch(replaced, guard), TypeError)
        beside = zipped([*members.items(), ("other/data.pkl", common.hostile(number))])
        assert "2 members" in common.raises(lambda: load_torch(beside, guard))
    assert guard.counts.refused == common.refused(), guard.counts.refused
