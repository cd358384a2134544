"""Builds beside bin/uistermo: the tool with sanitizers, and the shortest host of examples/host.c."""

import glob
import os
import subprocess

from .tool_runs import Trial

SANITIZERS = ("-g", "-O1", "-fsanitize=address,undefined", "-fno-sanitize-recover=all")
FLAGS = ("-std=c11", "-Wall", "-Wextra", "-Werror", *SANITIZERS)
# A report ends with a status that the tool has not. What a command has not freed at its end goes back to the system.
OPTIONS = ("ASAN_OPTIONS=exitcode=99:detect_leaks=0", "UBSAN_OPTIONS=exitcode=99:print_stacktrace=1")
SMALLEST = "int main(void) { return 0; }\n"
HOST_OUTPUT = b"0000F0C8D601042302E064A3\n"  # 01's answer to the Inventory of its session


def has_sanitizers(compiler, folder):
    """Whether the compiler builds a program with them that also starts."""
    source, program = os.path.join(folder, "smallest.c"), os.path.join(folder, "smallest")
    with open(source, "w", encoding="ascii") as file:
        file.write(SMALLEST)
    try:
        for words in ([compiler, *SANITIZERS, "-o", program, source], [program]):
            subprocess.run(words, stderr=subprocess.DEVNULL, check=True)
    except (FileNotFoundError, subprocess.CalledProcessError):
        return False
    return True


def sanitized(root, folder):
    """The command of a build with sanitizers; '' where the compiler has none, None where the sources do not build."""
    compiler, program = os.environ.get("CC", "gcc"), os.path.join(folder, "uistermo")
    if not has_sanitizers(compiler, folder):
        print(f"tool, sanitized: not tried, for {compiler} has no sanitizers here", flush=True)
        return ""
    library = os.path.join(root, "target", "staticlib", "libcabi.a")  # tools/link-c has written it for bin/uistermo
    sources = sorted(glob.glob(os.path.join(root, "uistermo", "*.c")))
    build = [compiler, *FLAGS, "-no-pie", "-I", os.path.join(root, "include"), "-o", program, *sources, library]
    if subprocess.run(build, check=False).returncode:
        return None
    return ["env", *OPTIONS, program]


def example_host(root, folder, label):
    """Links examples/host.c and runs it; returns the number of faults."""
    program, source = os.path.join(folder, "host"), os.path.join(root, "examples", "host.c")
    tools = os.path.join(root, "tools")
    if subprocess.run([os.path.join(tools, "link-c"), program, source], check=False).returncode:
        print(f"{label}: it is not linked", flush=True)
        return 1
    trial = Trial([os.path.join(tools, "run-x86"), program], folder, label)
    trial.expect("run", [], output=HOST_OUTPUT)
    return trial.faults
