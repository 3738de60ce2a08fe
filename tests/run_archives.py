"""Tests ./archives with a stand-in for rt, which proves nothing and has the kit's clang compile a module of the test.

    run_archives.py

It needs the Rattle kit and nm. The last line is 'N passed, M failed', and the exit status is 0 only where M is 0.
"""

import os
import shutil
import subprocess
import sys
import tempfile
from typing import NamedTuple

import build_c
from report import SECONDS, Report

MADE = ("x86_64-linux", "aarch64-linux")
MORE = ("aarch64-linux-android21", "riscv64-linux-gnu")

# An exported function that copies bytes, and one that is not exported.
MODULE = """\
source_filename = "rattle"
target datalayout = "e-m:e-p270:32:32-p271:32:32-p272:64:64-i64:64-i128:128-f80:128-n8:16:32:64-S128"
target triple = "x86_64-unknown-linux-gnu"

define internal noundef i64 @"a::sum"(i64 noundef %a0, i64 noundef %a1) #0 {
  %r0 = add i64 %a0, %a1
  ret i64 %r0
}

define void @nerupazhil_copy(ptr noundef %a0, i64 noundef %a1, ptr noundef %a2, i32 noundef %a3) #0 {
  %r0 = call i64 @"a::sum"(i64 %a1, i64 1)
  call void @llvm.memcpy.p0.p0.i64(ptr %a2, ptr %a0, i64 %r0, i1 false)
  store i32 %a3, ptr %a2, align 4
  ret void
}

declare void @llvm.memcpy.p0.p0.i64(ptr noalias writeonly, ptr noalias readonly, i64, i1 immarg) #1

attributes #0 = { nounwind "probe-stack"="inline-asm" "target-cpu"="x86-64" }
attributes #1 = { nocallback nofree nounwind willreturn memory(argmem: readwrite) }
"""

# The stand-in calls clang as the kit does, and says what rt says. A test puts other words in the place of some.
FIRST = "--target=x86_64-unknown-linux-gnu"
FLAGS = (
    "-march=x86-64 -mllvm -no-trap-after-noreturn -ffunction-sections -fdata-sections -mllvm -trap-unreachable "
    "-mllvm -no-x86-call-frame-opt -mllvm -disable-machine-licm -mllvm -disable-postra-machine-licm "
    "-mllvm -sink-common-insts=false --no-default-config -no-canonical-prefixes -fintegrated-cc1 "
    "-fno-crash-diagnostics -Werror -c -x ir module.bc -o module.o -fPIC -O3"
)
RT = f"""\
#!/bin/sh
set -eu
kit=${{0%/bin/rt}}
if [ "$1" = doc ]; then echo "$kit/START-HERE.md"; exit; fi
[ "$*" = "lib --cpu x86-64" ]
echo 'rt: chose --jobs 2 for nerupazhil_c'
mkdir -p out work
cp ../../module.bc work/
cd work
env -i "$kit/toolchain/bin/clang" {FIRST} --sysroot="$kit/toolchain" {FLAGS}
mv module.o nerupazhil_c.o
rm -f ../out/libnerupazhil_c.a
"$kit/toolchain/bin/llvm-ar" rcsD ../out/libnerupazhil_c.a nerupazhil_c.o
echo 'logic=proved functions=2 target=x86_64-unknown-linux-gnu sum=0'
"""


class Done(NamedTuple):
    status: int
    out: str
    err: list


def find_kit() -> str:
    """The kit's folder."""
    page = subprocess.run(["rt", "doc"], capture_output=True, check=True).stdout.decode().strip()
    return os.path.dirname(page)


class Room:
    """A folder like the repository, with a kit beside it that has the compiler of the real one and a stand-in for rt."""

    def __init__(self, folder: str, kit: str):
        self.folder, self.kit = folder, kit
        for name in ("archives", "tools/prove", "tools/staticlib"):
            os.makedirs(os.path.dirname(self.path(name)), exist_ok=True)
            shutil.copy(os.path.join(build_c.ROOT, name), self.path(name))
        for name in ("kit/bin", "temporary", "target/archives/old", "crates/nerupazhil_c"):
            os.makedirs(self.path(name))
        os.symlink(os.path.join(kit, "toolchain"), self.path("kit/toolchain"))
        self.store("crates.txt", "nerupazhil_c staticlib:\n")
        self.store("target/archives/old/libnerupazhil.a", "of an earlier run")

    def path(self, name: str) -> str:
        return os.path.join(self.folder, name)

    def store(self, name: str, text: str) -> str:
        with open(self.path(name), "w", encoding="utf-8") as stream:
            stream.write(text)
        return self.path(name)

    def run(self, *targets: str, module: str = MODULE, rt: str = RT, **variables: str) -> Done:
        """Runs the command with a module and a stand-in."""
        clang = os.path.join(self.kit, "toolchain", "bin", "clang")
        source, path = self.store("module.ll", module), self.path("module.bc")
        build_c.run(clang, "--target=x86_64-unknown-linux-gnu", "-c", "-emit-llvm", "-x", "ir", source, "-o", path)
        os.chmod(self.store("kit/bin/rt", rt), 0o755)
        path = self.path("kit/bin") + os.pathsep + os.environ["PATH"]
        environment = {**os.environ, "PATH": path, "TMPDIR": self.path("temporary"), **variables}
        command = [shutil.which("bash"), self.path("archives"), *targets]
        done = subprocess.run(command, capture_output=True, env=environment, timeout=SECONDS, check=False, cwd="/")
        return Done(done.returncode, done.stdout.decode(), done.stderr.decode().splitlines())

    def made(self) -> list:
        """The folders of the archives that there are."""
        folder = self.path("target/archives")
        return sorted(os.listdir(folder)) if os.path.isdir(folder) else []


# ---- what is made


def good(report: Report, room: Room) -> None:
    for targets, folders in (((), MADE), ((*MORE, *MADE), MADE + MORE)):
        done = room.run(*targets)
        paths = sorted(f"target/archives/{name}/libnerupazhil.a" for name in folders)
        expected = "\n".join(["archives: 1 functions in each of", *paths, ""])
        report.same(f"archives for {targets}", (0, expected), (done.status, done.out))
        shown = [line for line in done.err if line.startswith("archives: ")]
        report.test("what is shown meanwhile", shown and shown == done.err, done)
        report.same("the folders", sorted(folders), room.made())
        report.same("temporary files that are left", [], os.listdir(room.path("temporary")))
    with open(room.path("target/archives/x86_64-linux/libnerupazhil.a"), "rb") as ours:
        with open(room.path("target/staticlib/libnerupazhil.a"), "rb") as rts:
            report.same("the archive for x86-64", rts.read(), ours.read())


# ---- what is wrong


def changed(old: str, new: str, text: str) -> str:
    """A text with one part in place of another, which must be there once."""
    if text.count(old) != 1:
        raise ValueError(f"{old!r} is there {text.count(old)} times")
    return text.replace(old, new)


def wrong_exports():
    """Modules whose exported function is not right under every calling convention."""
    copy = "define void @nerupazhil_copy(ptr noundef %a0"
    result = changed(copy, copy.replace("void", "{ i64, i64 }"), MODULE)
    yield "a struct returned", changed("  ret void", "  ret { i64, i64 } zeroinitializer", result)
    yield "a number returned", changed("  ret void", "  ret i32 0", changed(copy, copy.replace("void", "i32"), MODULE))
    yield "a struct by value", changed(copy, copy + "x, { i64, i64 } %b, ptr noundef %a0", MODULE)
    yield "a struct in memory", changed(copy, copy.replace("ptr", "ptr byval([32 x i8]) align 8"), MODULE)
    narrow = changed("store i32 %a3", "store i8 %a3", MODULE)
    yield "a narrow number", changed("i32 noundef %a3", "i8 noundef %a3", narrow)


def wrong_modules():
    """Modules that may be right on x86-64 alone, and what is told of each."""
    for name, module in wrong_exports():
        told = "an exported function takes or returns more than pointers and numbers of 32 and 64 bits: "
        yield name, module, told
    yield "nothing exported", changed("define void", "define internal void", MODULE), "nerupazhil exports nothing"

    def calling(call: str, declared: str = "") -> str:
        return changed("  ret void", f"  call void {call}()\n  ret void", MODULE) + declared

    alone = "the module has what may be of x86-64 alone: "
    yield "assembler", calling('asm sideeffect "nop", ""'), alone
    fence = "@llvm.x86.sse2.mfence"
    yield "an instruction of x86-64", calling(fence, f"declare void {fence}()\n"), alone
    told = "the module calls functions that this script does not know: "
    yield "a function of C", calling("@abort", "declare void @abort()\n"), told
    told = "the module has attributes that this script does not know: "
    cpu = '"target-cpu"="x86-64"'
    yield "a feature", changed(cpu, cpu + ' "target-features"="+avx2"', MODULE), told
    yield "another processor", changed(cpu, '"target-cpu"="x86-64-v3"', MODULE), told
    told = "the archive for aarch64-linux needs more than memcpy and memset: memmove"
    yield "memmove", MODULE.replace("memcpy", "memmove").replace("noalias ", ""), told


def wrong_ways():
    """What else rt may do, and what is told of it."""
    another = "the kit calls clang in another way than this script knows:"
    yield "another flag", changed("-fPIC -O3", "-fPIC -O2", RT), another
    yield "one flag more", changed("-fPIC -O3", "-fPIC -O3 -fno-plt", RT), another
    once = RT[RT.index("env -i") : RT.index("mv module.o")]
    yield "called twice", changed(once, once + once, RT), another
    yield "not called", changed(once, ": >module.o\n", RT), another
    yield "another processor for the archive", changed("-march=x86-64 ", "-march=x86-64-v2 ", RT), another
    renamed = changed("-x ir module.bc", "-x ir other.bc", changed("bc work/", "bc work/other.bc", RT))
    yield "another file", renamed, another
    spoiled = changed("echo 'logic=proved", "echo >>../out/libnerupazhil_c.a\necho 'logic=proved", RT)
    yield "another archive", spoiled, "the module compiled here for x86-64 is not what rt has made of it"
    yield "nothing of a proof", changed("logic=proved", "logic=", RT), "rt does not say that nerupazhil is proved"
    yield "not proved", changed("set -eu", "if [ $1 = lib ]; then exit 1; fi", RT), "nerupazhil_c is not proved"


def failures(report: Report, kit: str) -> None:
    """Each ends with status 1 and a sentence, and no archive is there, not even an older one."""
    cases = [(name, {"module": module}, told) for name, module, told in wrong_modules()]
    cases += [(name, {"rt": rt}, told) for name, rt, told in wrong_ways()]
    for name, options, told in cases:
        with tempfile.TemporaryDirectory() as folder:
            room = Room(folder, kit)
            done = room.run(**options)
            shown = any(line.startswith(f"archives: {told}") for line in done.err)
            report.test(f"{name}: what is told", done.status == 1 and done.out == "" and shown, done)
            report.same(f"{name}: archives", [], room.made())
            report.same(f"{name}: temporary files", [], os.listdir(room.path("temporary")))


def missing(report: Report, room: Room) -> None:
    """Commands and parts of the kit that are not there: status 2, and an older archive stays."""
    tools = room.path("tools-alone")
    os.mkdir(tools)
    needed = ("dirname", "mktemp", "rm")
    for name in needed:
        os.symlink(shutil.which(name), os.path.join(tools, name))
    done = room.run(PATH=tools)
    report.same("no rt", Done(2, "", ["archives: the command rt is missing"]), done)
    done = room.run(PATH=room.path("kit/bin") + os.pathsep + tools)
    report.same("no nm", Done(2, "", ["archives: the command nm is missing"]), done)
    kit = room.path("kit")
    os.remove(os.path.join(kit, "toolchain"))
    clang = os.path.join(kit, "toolchain", "bin", "clang")
    report.same("no clang", Done(2, "", [f"archives: the kit at {kit} has no {clang}"]), room.run())
    report.same("an older archive", ["old"], room.made())


def main() -> int:
    report = Report()
    kit = find_kit()
    for group in (good, missing):
        with tempfile.TemporaryDirectory() as folder:
            group(report, Room(folder, kit))
    failures(report, kit)
    return report.finish()


if __name__ == "__main__":
    sys.exit(main())
