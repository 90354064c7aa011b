"""The documents that CMake writes about its targets."""
from adapter_files import Wrong, document

# The versions whose files are known.
MAKERS = "CMake 3.28 to 4.3"

OPTIONAL, MISSING = type(None), object()
SOURCE = {"destination": (str, OPTIONAL), "relative-directory": str, "source": str,
          "visibility": str}
INSTALLATION = {"destination": str, "message-level": str, "permissions": str,
                "script-location": str}
EXPORT = {"cxx-module-info-dir": str, "destination": str, "export-name": str, "export-prefix": str,
          "install": bool, "namespace": str}
DEPEND_INFO = {"bmi-installation": (INSTALLATION, OPTIONAL), "config": str,
               "cxx-modules": {str: SOURCE}, "dir-top-bld": str, "exports": [EXPORT],
               "linked-target-dirs": [str], "module-dir": str}


def depend_info(name):
    """Reads what CMake says of a target, which has at least the members above."""
    found = document(name)
    different = misfit(found, DEPEND_INFO)
    if different is not None:
        raise Wrong(f"{name}: {different or 'the document'} is not what {MAKERS} writes")
    return found


def misfit(value, shape, place=""):
    """Returns the place where a value differs from a shape, or None. A shape is a type; several
    shapes; [SHAPE], an array; {str: SHAPE}, an object with any members; or an object with the
    members that have to be there."""
    if isinstance(shape, tuple):
        found = [misfit(value, it, place) for it in shape]
        return None if None in found else found[0]
    if isinstance(shape, type):
        return None if isinstance(value, shape) else place
    if not isinstance(value, type(shape)):
        return place
    if isinstance(shape, list):
        if isinstance(shape[0], type) and {*map(type, value)} <= {shape[0]}:
            return None  # (the names of all linked targets)
        parts = [(index, it, shape[0]) for index, it in enumerate(value)]
    elif str in shape:
        parts = [(name, it, shape[str]) for name, it in value.items()]
    else:
        parts = [(name, value.get(name, MISSING), its_shape) for name, its_shape in shape.items()]
    for name, it, its_shape in parts:
        different = misfit(it, its_shape, f"{place} {name}".strip())
        if different is not None:
            return different
    return None
