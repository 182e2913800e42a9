"""What `pip install bindings/python` calls: it packs the library that `make` built."""

import os
import pathlib
import subprocess
import sys

HERE = pathlib.Path(__file__).resolve().parent
LIBRARY = HERE.parents[1] / "out/libdeno_semver.so.0"


def build_wheel(wheel_directory, config_settings=None, metadata_directory=None):
    """Writes the wheel into the folder, and returns its name."""
    library = pathlib.Path(os.environ.get("DENO_SEMVER_LIBRARY", LIBRARY))
    if not library.exists():
        sys.exit(f"{library} isn't built: run make at the top of the repository, or set DENO_SEMVER_LIBRARY to the library")
    command = [sys.executable, HERE / "make_wheel.py", library, wheel_directory]
    return pathlib.Path(subprocess.run(command, capture_output=True, text=True, check=True).stdout.strip()).name


def build_sdist(sdist_directory, config_settings=None):
    sys.exit("There is no source distribution: the library needs the Rattle kit to build")
