"""The shared library, made of the static one by the system's C compiler. Only the calls of the header are seen from outside."""
import os
import shutil
import subprocess
import tempfile

from common.command import Failure

from explanation.formatting import visible

COMPILERS = ("cc", "gcc", "clang")
SEEN = "{ global: racecheck_*; local: *; };\n"


def make_shared(archive, path):
    """Writes the library beside and renames it into place."""
    compiler = next(filter(None, map(shutil.which, COMPILERS)), None)
    if compiler is None:
        raise Failure(f"no C compiler here ({', '.join(COMPILERS)}), by which {path.name} is made of {visible(str(archive))}")
    with tempfile.TemporaryDirectory(dir=path.parent, prefix=f".{path.name}.") as scratch:
        seen, made = os.path.join(scratch, "seen"), os.path.join(scratch, path.name)
        with open(seen, "w", encoding="ascii") as file:
            file.write(SEEN)
        done = subprocess.run(
            [compiler, "-shared", "-o", made, "-Wl,--whole-archive", archive, "-Wl,--no-whole-archive",
             f"-Wl,--version-script={seen}", f"-Wl,-soname,{path.name}", "-Wl,-z,defs,-z,now,-z,relro", "-Wl,--build-id=none"],
            stdin=subprocess.DEVNULL, capture_output=True, text=True)
        if done.returncode:
            raise Failure(f"{compiler} cannot make {path.name}: {done.stderr.strip()}")
        os.replace(made, path)
