"""Fits an estimator of scikit-learn, whichever it is, to little data."""

import contextlib
import importlib
import inspect

import numpy
from sklearn.linear_model import LogisticRegression, Ridge
from sklearn.preprocessing import StandardScaler

for _name in ("halving_search_cv", "hist_gradient_boosting", "iterative_imputer"):
    with contextlib.suppress(ImportError):  # (some versions lack one)
        importlib.import_module(f"sklearn.experimental.enable_{_name}")

ROWS, COLUMNS = 40, 3
_RANDOM = numpy.random.RandomState(0)
DATA = _RANDOM.uniform(0.1, 1, (ROWS, COLUMNS))
CLASSES = numpy.arange(ROWS) % 2
NUMBERS = DATA @ [1, 2, 3]
BOTH = numpy.stack([CLASSES, 1 - CLASSES], axis=1)
PAIRS = numpy.stack([NUMBERS, -NUMBERS], axis=1)
TEXTS = ["a cat sat", "a dog ran", "cats and dogs", "birds fly"] * 4
DICTS = [{"a": 1, "b": 2.0}, {"a": 2, "c": 1}]
_CLASSIFIER = {"estimator": LogisticRegression()}
_REGRESSOR = {"estimator": Ridge()}
_CHOICE = {"estimator": Ridge(), "param_grid": {"alpha": [1, 2]}}
_SPREAD = {"estimator": Ridge(), "param_distributions": {"alpha": [1, 2]}, "n_iter": 2}
_STEPS = [("scaler", StandardScaler()), ("model", Ridge())]

WORDS = {
    "ClassifierChain": {"base_estimator": LogisticRegression()},
    "ColumnTransformer": {"transformers": [("scaler", StandardScaler(), [0, 1])]},
    "FeatureUnion": {"transformer_list": _STEPS[:1]},
    "GridSearchCV": _CHOICE,
    "HalvingGridSearchCV": _CHOICE,
    "HalvingRandomSearchCV": {"estimator": Ridge(), "param_distributions": {"alpha": [1, 2]}},
    "MultiOutputClassifier": _CLASSIFIER,
    "MultiOutputRegressor": _REGRESSOR,
    "OneVsOneClassifier": _CLASSIFIER,
    "OneVsRestClassifier": _CLASSIFIER,
    "OrthogonalMatchingPursuitCV": {"max_iter": 2},
    "OutputCodeClassifier": _CLASSIFIER,
    "Pipeline": {"steps": _STEPS},
    "RFE": _REGRESSOR,
    "RFECV": _REGRESSOR,
    "RandomizedSearchCV": _SPREAD,
    "RegressorChain": {"base_estimator": Ridge()},
    "SelectFromModel": _REGRESSOR,
    "SelectKBest": {"k": 1},
    "SelfTrainingClassifier": {"base_estimator": LogisticRegression()},
    "SequentialFeatureSelector": {**_REGRESSOR, "n_features_to_select": 1},
    "SparseCoder": {"dictionary": DATA[:2]},
    "SpectralBiclustering": {"n_components": 2, "n_best": 1},
    "StackingClassifier": {"estimators": [("one", LogisticRegression())]},
    "StackingRegressor": {"estimators": [("one", Ridge())]},
    "TSNE": {"n_iter": 250, "perplexity": 5},
    "VotingClassifier": {"estimators": [("one", LogisticRegression())]},
    "VotingRegressor": {"estimators": [("one", Ridge())]},
}
"""Arguments that the estimators need, or that make their fit short."""

FEW = {"n_estimators": 3, "max_iter": 5, "n_init": 1, "random_state": 0, "cv": 2, "n_components": 1,
       "quantile": 0.5}
"""Arguments that make a fit short, where an estimator has them."""

GIVEN = {
    **dict.fromkeys(("CountVectorizer", "HashingVectorizer", "TfidfVectorizer"), (TEXTS,)),
    "DictVectorizer": (DICTS,),
    "FeatureHasher": (DICTS,),
    "IsotonicRegression": (DATA[:, 0], NUMBERS),
    "KernelCenterer": (DATA @ DATA.T,),
    "LabelBinarizer": (CLASSES,),
    "LabelEncoder": (CLASSES,),
    "MultiLabelBinarizer": ([[1, 2], [3]],),
    "PatchExtractor": (_RANDOM.rand(2, 8, 8),),
    **dict.fromkeys(("CCA", "PLSCanonical", "PLSRegression", "PLSSVD"), (DATA, PAIRS)),
    **dict.fromkeys(("MultiOutputClassifier", "ClassifierChain"), (DATA, BOTH)),
    **dict.fromkeys(("MultiOutputRegressor", "RegressorChain", "MultiTaskElasticNet",
                     "MultiTaskElasticNetCV", "MultiTaskLasso", "MultiTaskLassoCV"), (DATA, PAIRS)),
}
"""What the estimators are fitted to that take something else than numbers and classes."""
_OF_NUMBERS = ("RFE", "RFECV", "SelectFromModel", "SequentialFeatureSelector", "Pipeline",
               "GridSearchCV", "RandomizedSearchCV", "HalvingGridSearchCV", "HalvingRandomSearchCV")


def given_to(name, kind):
    """What an estimator is fitted to."""
    if name in GIVEN:
        return GIVEN[name]
    if name in _OF_NUMBERS or getattr(kind, "_estimator_type", "") == "regressor":
        return (DATA, NUMBERS)
    return (DATA, CLASSES)


def fitted(name, kind):
    """An estimator that is fitted, and again for each loss that it takes."""
    words = dict(WORDS.get(name, {}))
    taken = inspect.signature(kind).parameters
    words.update((word, FEW[word]) for word in FEW if word in taken and word not in words)
    given = given_to(name, kind)
    yield kind(**words).fit(*given)
    for rule in getattr(kind, "_parameter_constraints", {}).get("loss", ()):
        for loss in sorted(getattr(rule, "options", ())):
            try:
                yield kind(**{**words, "loss": loss}).fit(*given)
            except (TypeError, ValueError):  # some go with other arguments alone
                continue
