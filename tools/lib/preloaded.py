"""Objects in C that are preloaded into the proved native program, which asks the C library for memory, reads and writes."""
import os
import subprocess
from pathlib import Path

TOOLS = Path(__file__).resolve().parent.parent


def compiled(name, folder):
    """The object of this file of tools/, compiled in a folder."""
    made = os.path.join(folder, Path(name).with_suffix('.so').name)
    subprocess.run(['cc', '-O1', '-fPIC', '-shared', '-fno-builtin', '-o', made, TOOLS / name], check=True)
    return made
