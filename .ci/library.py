"""Builds the library for other languages from what `rt ci` or a first use has proved here: library.py FOLDER [ARCHIVE]

FOLDER then has libocl_check.a, libocl_check.so and ocl_check.h. Both libraries have the kit's heap in them. ARCHIVE is a static
library of the crate that is built already."""
import pathlib
import shutil
import subprocess
import sys
import tempfile

sys.dont_write_bytecode = True
import first_use
import prover

CRATE = "ocl_check_c"
NAME = "libocl_check"
HEADER = prover.ROOT / "examples" / "languages" / "ocl_check.h"


def build(archive):
    """Builds the crate as a static library, without the heap."""
    tree = prover.Tree()
    flags = ["--crate-type", "staticlib", "--toolchain", f"{prover.kit()}/toolchain", "--jobs", "2", "-o", str(archive.absolute())]
    words = prover.command(tree, CRATE, "build", first_use.libraries(tree, CRATE), *flags)
    called = subprocess.run(words, cwd=tree.folder(CRATE), stdout=subprocess.PIPE, stderr=subprocess.STDOUT, text=True)
    if called.returncode or not archive.is_file():
        print(called.stdout, file=sys.stderr)
        sys.exit(called.returncode or 1)


def join(archive, folder):
    """Leaves in a folder the two libraries that a static library and the kit's heap make, and the header."""
    heap = prover.kit() / "c" / "liblibc_c.a"
    static, shared = folder / f"{NAME}.a", folder / f"{NAME}.so"
    script = f"create {static}\naddlib {archive}\naddlib {heap}\nsave\nend\n"
    subprocess.run(["ar", "-M"], input=script, text=True, check=True)
    whole = ["-Wl,--whole-archive", str(archive), "-Wl,--no-whole-archive", str(heap)]
    subprocess.run(["cc", "-shared", "-o", str(shared), f"-Wl,-soname,{shared.name}", *whole], check=True)
    shutil.copyfile(HEADER, folder / HEADER.name)


def main(folder, archive=None):
    folder = pathlib.Path(folder)
    folder.mkdir(parents=True, exist_ok=True)
    with tempfile.TemporaryDirectory(prefix="ocl-library-") as room:
        if archive is None:
            archive = pathlib.Path(room, f"{NAME}_c.a")
            build(archive)
        join(archive, folder)
    return 0


if __name__ == "__main__":
    sys.exit(main(*sys.argv[1:]) if 2 <= len(sys.argv) <= 3 else __doc__)
