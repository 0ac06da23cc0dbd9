"""The shared library: where it is, and the twenty-two functions of include/parity.h in it."""

from __future__ import annotations

import ctypes
import os
from pathlib import Path
from typing import Any, Dict, List, Tuple

NAME = "libparity.so.1"

SIZE = ctypes.c_size_t
SLICE: Tuple[Any, ...] = (ctypes.c_void_p, SIZE)
MATRIX: Tuple[Any, ...] = SLICE + (SIZE, SIZE, SIZE)

# The parameters of each function, without the last slice, `values`.
PARAMETERS: Dict[str, Tuple[Any, ...]] = {
    "parity_load": SLICE + SLICE,
    "parity_write": MATRIX + SLICE,
    "parity_share": MATRIX + (SIZE, SIZE),
    "parity_count": MATRIX,
    "parity_split": MATRIX + (SIZE, SIZE),
    "parity_take_back": MATRIX,
    "parity_orthogonalise": MATRIX,
    "parity_verify": MATRIX + SLICE,
    "parity_extend": MATRIX + SLICE + SLICE,
    "parity_is_stopping": MATRIX + SLICE,
    "parity_peel": MATRIX + SLICE,
    "parity_determine": MATRIX + SLICE,
    "parity_mend_packets": MATRIX + SLICE + SLICE + SLICE,
    "parity_mend_block": MATRIX + SLICE,
    "parity_rank": MATRIX,
    "parity_encode": MATRIX + SLICE + SLICE,
    "parity_message_bits": MATRIX + SLICE,
    "parity_house_code": (SIZE,) + SLICE,
    "parity_stopping_sets": MATRIX + (SIZE,) + SLICE,
    "parity_join": MATRIX + MATRIX + SLICE,
    "parity_min_sum": MATRIX + (SIZE,) + SLICE + SLICE + SLICE + SLICE,
    "parity_min_sum_range": SLICE + SLICE + SLICE,
}


def places() -> List[str]:
    """Where the library is looked for, in this order; the last is the system's own search."""
    named = os.environ.get("PARITY_LIBRARY")
    if named:
        return [named]
    above = Path(__file__).resolve().parents
    # In the repository, and where `./install` puts the package.
    beside = [above[3] / "target" / "lib" / NAME, above[4] / "lib" / NAME]
    return [str(place) for place in beside if place.exists()] + [NAME]


def load() -> ctypes.CDLL:
    """The library with its functions declared; an ImportError says where it was looked for."""
    faults = []
    for place in places():
        try:
            library = ctypes.CDLL(place)
        except OSError as error:
            faults.append(str(error))
            continue
        for name, parameters in PARAMETERS.items():
            function = getattr(library, name)
            function.argtypes = parameters + SLICE
            function.restype = ctypes.c_uint32
        return library
    raise ImportError(
        f"the shared library {NAME} is missing ({'; '.join(faults)}); `packaging/make-shared` makes it, `./install` "
        "installs it, and PARITY_LIBRARY may name the file"
    )
