"""geolint for Python: is a text GeoJSON (RFC 7946), and otherwise where and why not.

    >>> import geolint
    >>> geolint.check(b'{"type":"Point","coordinates":[17.1, 48.1]}').valid
    True
    >>> print(geolint.report(pathlib.Path("map.geojson")))
    6:7: broken G15: ring not closed ($.geometry.coordinates[0])

    >>> for finding in geolint.features(pathlib.Path("map.geojson")):
    ...     if not finding:
    ...         print(finding.number, finding.verdict)

    >>> verdict = await geolint.acheck(request.stream())

`python -m geolint` runs the program geolint-files, where it is installed. `geolint.django` and `geolint.starlette` have validators for
these frameworks. `geolint.dask` checks files, and one large text sequence in parts, on a cluster.

It needs Python 3.8 and nothing but the shared object `libgeolint.so`: the one that the variable GEOLINT_LIBRARY names, otherwise
one that lies beside this file, otherwise where `make install-library` put it, otherwise the system's.
"""

from ._build import Build, build
from ._findings import AsyncFeatures, AsyncRecords, Features, Records, afeatures, arecords, features, records
from ._hints import hint, hint_around
from ._linter import Linter, acheck, check
from ._places import Place, Report, locate, report
from ._verdict import Ended, Finding, Verdict, version
from ._verdict import Warning as Warning

# `Warning` is left out: `from geolint import *` must not hide Python's own.
__all__ = [
    "check",
    "acheck",
    "report",
    "locate",
    "hint",
    "hint_around",
    "features",
    "afeatures",
    "records",
    "arecords",
    "Linter",
    "Verdict",
    "Report",
    "Place",
    "Finding",
    "Features",
    "AsyncFeatures",
    "Records",
    "AsyncRecords",
    "Ended",
    "version",
    "Build",
    "build",
]

__version__ = version()
