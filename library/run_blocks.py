#!/usr/bin/env python3
"""Compiles and runs each code block of a document: library/run_blocks.py DOCUMENT FOLDER.

A block of ```c, ```cpp or ```python is a whole program, and the block of ```text behind it is what it prints. A block of ```c without
a `main` is the statements of one. A block of ```sh that begins with `cc`, or of ```cmake, builds the C block before it another way.
Other blocks of ```sh and ```console are not run. pkg-config finds the library.
"""
import os
import re
import subprocess
import sys

STRICT = ["-Wall", "-Wextra", "-Werror"]
# The program of a C block that is statements alone.
STATEMENTS = """#include <sigmuyap.h>
#include <stdio.h>

int main(void)
{{
{}    return 0;
}}
"""


def blocks(document):
    return re.findall(r"^```(\w+)\n(.*?)^```$", open(document, encoding="utf-8").read(), re.M | re.S)


def run(*words, **options):
    return subprocess.run(words, check=True, capture_output=True, text=True, **options).stdout


def flags(option):
    return run("pkg-config", option, "sigmuyap").split()


def built_by_cc(language, code, folder):
    if language == "c" and "int main(" not in code:
        code = STATEMENTS.format(code)
    source = os.path.join(folder, "main.c" if language == "c" else "main.cc")
    open(source, "w").write(code)
    compiler = ["cc", "-std=c11"] if language == "c" else ["c++", "-std=c++17"]
    program = os.path.join(folder, "main")
    run(*compiler, *STRICT, *flags("--cflags"), source, *flags("--libs"), "-o", program)
    return [program]


def built_by_shell(code, folder):
    run("sh", "-e", "-c", code, cwd=folder)
    return [os.path.join(folder, "main")]


def built_by_cmake(code, folder):
    open(os.path.join(folder, "CMakeLists.txt"), "w").write(code)
    build = os.path.join(folder, "build")
    run("cmake", "-S", folder, "-B", build)
    run("cmake", "--build", build)
    name = re.search(r"add_executable\((\w+)", code)[1]
    return [os.path.join(build, name)]


def program_of(language, code, folder):
    if language == "python":
        path = os.path.join(folder, "main.py")
        open(path, "w").write(code)
        return [sys.executable, path]
    if language == "sh":
        return built_by_shell(code, folder)
    if language == "cmake":
        return built_by_cmake(code, folder)
    return built_by_cc(language, code, folder)


def main():
    found, folder = blocks(sys.argv[1]), os.path.join(sys.argv[2], "blocks")
    os.makedirs(folder, exist_ok=True)
    ran, expected = 0, ""
    for number, (language, code) in enumerate(found):
        if language not in ("c", "cpp", "python", "cmake") and not (language == "sh" and code.startswith("cc ")):
            continue
        if number + 1 < len(found) and found[number + 1][0] == "text":
            expected = found[number + 1][1]
        try:
            printed = run(*program_of(language, code, folder), cwd=folder)
        except subprocess.CalledProcessError as fault:
            sys.exit(f"block {number + 1} ({language}): {fault.stdout}{fault.stderr}")
        if printed != expected:
            sys.exit(f"block {number + 1} ({language}) prints:\n{printed}")
        ran += 1
    print(f"{ran} programs of {os.path.basename(sys.argv[1])}")


main()
