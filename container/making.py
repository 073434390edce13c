"""The image made from the sources of a checkout."""

from container import layout, static
from workbench.build import ROOT, TARGET

# A trial image never takes the place of the proved one.
PLACES = {static.PROVED: TARGET / "oci", static.REFERENCE: TARGET / "oci-reference"}


def image(path, engine):
    """Proves and builds what the image holds, and writes its layout."""
    layout.judge(path)
    if engine == static.PROVED:
        static.prove(ROOT)
    return layout.make(path, static.ENGINES[engine](ROOT))
