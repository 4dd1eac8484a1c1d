"""Which extra of the package has the libraries that a URL or an option needs."""

from __future__ import annotations

EXTRAS = {
    "s3": "s3", "s3a": "s3", "gs": "gs", "gcs": "gs", "hdfs": "hdfs", "http": "http",
    "https": "http", "redis": "redis", "rediss": "redis", "amqp": "amqp", "amqps": "amqp",
    "kafka": "kafka", "--cluster": "cluster",
}
"""The extra for each scheme, and for an option."""


def needs(what: str, package: str, why: str = "") -> OSError:
    """The error about a URL or an option for which a package is missing: what to install."""
    extra = EXTRAS.get(what.partition("://")[0])
    lacks = f"the package {package}, which is not installed" if package else f"a package: {why}"
    install = f"'storklocker[{extra}]'" if extra else package
    return OSError(f"{what} needs {lacks}{f': pip install {install}' if install else ''}")
