"""Fitted estimators of scikit-learn: what they give compiled code has the sizes that it believes.

It takes as many columns as an estimator says that it has seen, follows the children of nodes, and
writes a column for each tree of a stage.
"""

from __future__ import annotations

import functools
import sys
from typing import TYPE_CHECKING, Any, Callable, Dict, List, NamedTuple, Tuple

from ._answers import Misused
from ._attributes import judge_attributes
from ._of_sklearn import array_of, check_children, whole
from ._versions import version_of

if TYPE_CHECKING:
    from ._reader import Reader

_MOST = 1 << 31


class _Part(NamedTuple):
    """An attribute that a state sets."""

    reader: Reader
    kind: Any
    """The class of the estimator."""
    name: str
    state: Dict[str, Any]

    @property
    def value(self) -> Any:
        return self.state[self.name]

    def wrong(self) -> Misused:
        return Misused(f"the {self.name} of an estimator contradicts itself")

    def columns(self) -> int:
        """How many columns the estimator has seen: it takes no other data."""
        numpy: Any = sys.modules["numpy"]
        found = self.state.get("n_features_" if _compares() else "n_features_in_")
        return whole(found.item() if isinstance(found, numpy.integer) else found, 0, _MOST)


@functools.lru_cache(maxsize=1)
def _compares() -> bool:
    """Whether this is a version of scikit-learn that compares data with an estimator's arrays: only
    those of trees say how many columns they have seen.
    """
    version = sys.modules["sklearn"].__version__
    return tuple(map(int, version.split(".")[:2])) < (0, 24)


def state_of(reader: Reader, estimator: Any, state: Any) -> Any:
    """The state of an estimator, which says on loading of which version it is."""
    if type(state) is not dict:
        raise Misused("the state of an estimator isn't a dict")
    judge_attributes(estimator, state.items(), False)
    if any(callable(it) and callable(getattr(type(estimator), str(name), None))
           for name, it in state.items()):
        raise Misused("the state of an estimator has a function in place of a method")
    made = dict(state)
    if "_sklearn_version" in state:
        made["_sklearn_version"] = version_of(state["_sklearn_version"])
    for name, judge in _PARTS.items():
        if name in state:
            made[name] = judge(_Part(reader, type(estimator), name, made))
    return made


def _ends(part: _Part) -> Any:
    ends = array_of(part.reader, part.state.get("X_thresholds_"), "fiu", (None,))
    array_of(part.reader, part.state.get("y_thresholds_"), "fiu", ends.shape)
    return part.value


def _as_wide(part: _Part) -> Any:
    """Rows of as many columns."""
    if part.value is None or _compares():
        return part.value
    shape = getattr(part.value, "shape", None)
    if type(shape) is not tuple or id(part.value) in part.reader.unbuilt:
        raise part.wrong()
    if len(shape) == 2 and shape != (0, 0) and shape[1] != part.columns():
        raise part.wrong()
    return part.value


def _tree(part: _Part) -> Any:
    """A tree that asks for no other columns; neighbours compare widths themselves."""
    tree = part.value
    if type(tree).__module__ == TREES:
        if id(tree) in part.reader.unbuilt or tree.n_features != part.columns():
            raise part.wrong()
    return tree


def _stages(part: _Part) -> Any:
    """Trees of stages, in an array of objects: a column of them for each class."""
    numpy: Any = sys.modules["numpy"]
    stages = part.value
    if type(stages) is not numpy.ndarray:
        return stages
    if id(stages) in part.reader.unbuilt or stages.ndim != 2 or stages.size == 0:
        raise part.wrong()
    if _written(part) != stages.shape[1]:
        raise part.wrong()
    count = part.columns()
    for stage in stages.ravel().tolist():
        held = _held(stage, "tree_")
        is_tree = type(held).__module__ == TREES and id(held) not in part.reader.unbuilt
        if not is_tree or held.n_features != count:
            raise part.wrong()
    return stages


def _written(part: _Part) -> int:
    """How many columns an estimator has the trees of a stage write: those that its loss asks for,
    and that the constant estimator says with which it begins.
    """
    state, first = part.state, part.state.get("init_")
    loss = state.get("_loss", state.get("loss_"))
    count = whole(state.get("n_trees_per_iteration_", _held(loss, "K")), 1, _MOST)
    if type(first) is str:
        return count
    has_many = any(getattr(type(loss), it, 0) is True and _held(loss, it) is None for it in _MANY)
    kind = type(first).__name__ if type(first).__module__ == "sklearn.dummy" else ""
    if count != 1 and not has_many or kind not in ("DummyClassifier", "DummyRegressor"):
        raise part.wrong()
    whole(_held(first, "n_outputs_"), 1, 1)
    if kind == "DummyClassifier":
        classes = 2 if count == 1 else count
        array_of(part.reader, _held(first, "class_prior_"), "f", (classes,))
        whole(_held(first, "n_classes_"), classes, classes)
    elif count != 1:
        raise part.wrong()
    return count


_MANY = ("is_multi_class", "is_multiclass")
"""What losses say, by version, that give a column for each class."""


def _held(it: Any, name: str) -> Any:
    """An attribute that a state has set of an object, or None."""
    return getattr(it, "__dict__", {}).get(name)


def _histograms(part: _Part) -> List[List[Any]]:
    """Trees over histograms, by iteration and class."""
    if type(part.value) is not list or any(type(row) is not list for row in part.value):
        raise part.wrong()
    made = [list(row) for row in part.value]
    if not any(made):
        return made
    count = part.columns()
    marks = _held(part.state.get("_bin_mapper"), "is_categorical_")
    if not _compares():  # (which knows no categories)
        marks = array_of(part.reader, marks, "bu", (count,)) != 0
    for it in (it for row in made for it in row):
        if f"{type(it).__module__}.{type(it).__name__}" != PREDICTOR:
            raise part.wrong()
        inner = array_of(part.reader, _held(it, "nodes"), "V", (None,))
        inner = inner[inner["is_leaf"] == 0]
        if (inner["feature_idx"] >= count).any():
            raise part.wrong()
        if not _compares() and not marks[inner["feature_idx"][inner["is_categorical"] != 0]].all():
            raise part.wrong()
    return made


TREES = "sklearn.tree._tree"
PREDICTOR = "sklearn.ensemble._hist_gradient_boosting.predictor.TreePredictor"


def check_predictor(reader: Reader, predictor: Any) -> None:
    """Whether the nodes of a tree over histograms are those of a tree."""
    own = vars(predictor)
    nodes = array_of(reader, own.get("nodes"), "V", (None,))
    wanted = sys.modules["sklearn.ensemble._hist_gradient_boosting.common"]
    if nodes.dtype != wanted.PREDICTOR_RECORD_DTYPE or len(nodes) == 0:
        raise Misused("the nodes of a tree have an unexpected form")
    inner = nodes["is_leaf"] == 0
    check_children(reader, inner, nodes["left"].astype("i8"), nodes["right"].astype("i8"))
    if "is_categorical" not in wanted.PREDICTOR_RECORD_DTYPE.names:  # (before 0.24)
        return
    sets = nodes["bitset_idx"][inner & (nodes["is_categorical"] != 0)]
    for name in ("binned_left_cat_bitsets", "raw_left_cat_bitsets"):
        held = array_of(reader, own.get(name), "u", (None, 8))
        if (sets >= len(held)).any():
            raise Misused("a node of a tree has a set of categories that doesn't exist")


_ONE = ("one_class", "epsilon_svr", "nu_svr")
"""The machines that count their vectors once, and say it twice."""


def _machine(part: _Part) -> Any:
    """The coefficients of a support vector machine, for each pair of classes and each vector."""
    counts = array_of(part.reader, part.state.get("_n_support"), "i", (None,)).astype("i8")
    vectors = array_of(part.reader, part.state.get("support_"), "i", (None,))
    fitted = part.state.get("shape_fit_")
    if type(fitted) is not tuple or len(fitted) == 0 or len(counts) < 2:
        raise part.wrong()
    places, many = len(counts) * (len(counts) - 1) // 2, len(vectors)
    if (counts < 0).any() or len(counts) > 1 << 16 or "_impl" in part.state:
        raise part.wrong()
    if counts.sum() != many and not (part.kind._impl in _ONE and (counts == many).all()):
        raise part.wrong()
    if many and (vectors.min() < 0 or vectors.max() >= whole(fitted[0], 0, _MOST)):
        raise part.wrong()
    if _shape(part.reader, part.value) != (len(counts) - 1, many):
        raise part.wrong()
    if hasattr(part.value, "indptr") and len(part.value.data) != (len(counts) - 1) * many:
        raise part.wrong()  # (compiled code reads a sparse matrix as if it were dense)
    if _shape(part.reader, part.state.get("support_vectors_"))[0] not in (0, many):
        raise part.wrong()
    array_of(part.reader, part.state.get("_intercept_"), "f", (places,))
    for word in ("_probA", "_probB"):
        if len(array_of(part.reader, part.state.get(word), "f", (None,))) not in (0, places):
            raise part.wrong()
    for word in ("_n_support", "support_"):  # (what else has them may be written to)
        part.state[word] = part.state[word].copy()
    return part.value


def _shape(reader: Reader, rows: Any) -> Tuple[int, int]:
    """The shape of an array, or of a sparse matrix."""
    if hasattr(rows, "indptr") and type(rows).__module__.startswith("scipy.sparse."):
        return tuple(rows.shape)  # type: ignore[return-value]
    found: Tuple[int, int] = array_of(reader, rows, "f", (None, None)).shape
    return found


_PARTS: Dict[str, Callable[..., Any]] = {
    "X_thresholds_": _ends,
    "y_thresholds_": _ends,
    "tree_": _tree,
    "estimators_": _stages,
    "_predictors": _histograms,
    "_dual_coef_": _machine,
    "_fit_X": _as_wide,
    "cluster_centers_": _as_wide,
    "support_vectors_": _as_wide,
}
"""What judges an attribute of a state, and gives the one that is set."""
