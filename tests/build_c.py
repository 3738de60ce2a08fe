"""Builds C and C++ programs for the tests: below target/c, with warnings as errors.

The archive is libnerupazhil.a of the folder that NERUPAZHIL_STATICLIB names, else of target/staticlib. For AArch64 it
is that of aarch64-linux in the folder that NERUPAZHIL_ARCHIVES names, else in target/archives; a program for AArch64
has the target in its name and is linked statically, so that an emulator can run it.
"""

import os
import subprocess

ROOT = os.path.abspath(os.path.join(os.path.dirname(os.path.abspath(__file__)), ".."))
FOLDER = os.path.join(ROOT, "target", "c")
WARNINGS = ["-Wall", "-Wextra", "-pedantic", "-Werror"]
EXAMPLES = os.path.join(ROOT, "c", "examples")
INCLUDE = ["-I", os.path.join(ROOT, "c", "include"), "-I", EXAMPLES]
COMPILERS = {"x86_64": "", "aarch64": "aarch64-linux-gnu-"}  # what stands before gcc and g++, for each target
PARTS = {"list": ("list", "index_file"), "put": ("put", "save", "index_file")}  # of the programs in c/examples


class BuildFailed(Exception):
    """What the compiler said."""


def archive(target: str = "x86_64") -> str:
    if target == "x86_64":
        folder = os.environ.get("NERUPAZHIL_STATICLIB") or os.path.join(ROOT, "target", "staticlib")
    else:
        folders = os.environ.get("NERUPAZHIL_ARCHIVES") or os.path.join(ROOT, "target", "archives")
        folder = os.path.join(folders, f"{target}-linux")
    return os.path.join(folder, "libnerupazhil.a")


def path_of(name: str) -> str:
    """The path of a file below target/c."""
    os.makedirs(FOLDER, exist_ok=True)
    return os.path.join(FOLDER, name)


def write(name: str, text: str) -> str:
    """Writes a source below target/c. Answers its path."""
    path = path_of(name)
    with open(path, "w", encoding="utf-8") as stream:
        stream.write(text)
    return path


def run(*command: str) -> bytes:
    """Runs a compiler or a built program. Answers what it prints."""
    done = subprocess.run(command, capture_output=True, check=False)
    if done.returncode != 0:
        raise BuildFailed(f"{command[0]}: status {done.returncode}: {(done.stderr or done.stdout).decode()}")
    return done.stdout


def compiler(standard: str, warnings: bool = True, target: str = "x86_64") -> list:
    language = ["g++", "-x", "c++"] if standard.startswith("c++") else ["gcc"]
    language[0] = COMPILERS[target] + language[0]
    return language + [f"-std={standard}", "-O1", *(WARNINGS if warnings else ["-w"]), *INCLUDE]


def build(name: str, sources, standard: str = "c99", warnings: bool = True, target: str = "x86_64") -> str:
    """Builds a program with the archive. Answers its path."""
    path = path_of(name if target == "x86_64" else f"{name}-{target}")
    static = [] if target == "x86_64" else ["-static"]
    run(*compiler(standard, warnings, target), *static, *sources, "-x", "none", archive(target), "-o", path)
    return path


def build_object(name: str, source: str, standard: str) -> None:
    run(*compiler(standard), "-c", source, "-o", path_of(name))


def example_sources(name: str) -> list:
    return [os.path.join(EXAMPLES, f"{part}.c") for part in PARTS[name]]


def build_example(name: str, standard: str = "c99", target: str = "x86_64") -> str:
    """Builds a program of c/examples. Answers its path."""
    return build(name, example_sources(name), standard, target=target)


def build_shim(name: str, source: str) -> str:
    """Builds a library to be loaded before others. Answers its path."""
    path = path_of(name)
    run(*compiler("c11"), "-shared", "-fPIC", source, "-o", path)
    return path
