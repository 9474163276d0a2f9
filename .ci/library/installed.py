"""The library as bindings/c/install.sh puts it: what the shared library shows, what it wants, and what pkg-config says of it; and
what the Rust crate says where it finds no library."""
import os
import re
import shutil
import subprocess

import names
from driven import ROOT


def told(*words, **how):
    """What a command prints that has to go well."""
    return subprocess.run(words, stdout=subprocess.PIPE, text=True, check=True, cwd=ROOT, **how).stdout


def shown(path):
    """The shared library defines the exports, under the version of the map, and nothing else; what it wants is of the C library; and
    its name is that of the major version."""
    defined = {line.split()[-1] for line in told("nm", "-D", "--defined-only", path).splitlines()}
    wanted = {f"{name}@@WOLQEDIR_0" for name in names.exports()}
    assert defined - {"WOLQEDIR_0"} == wanted, defined ^ wanted
    lacking = [line.split()[-1] for line in told("nm", "-D", "--undefined-only", path).splitlines()]
    assert "malloc@GLIBC_2.2.5" in lacking, lacking
    others = [name for name in lacking if "@GLIBC" not in name and name not in ("__gmon_start__", "__cxa_finalize")]
    assert all(re.match(r"_ITM_|__", name) for name in others), others
    assert "Library soname: [libwolqedir.so.0]" in told("readelf", "-d", path)
    return len(wanted)


def flags(prefix, *options):
    """What pkg-config says, or where there is none what it has to say."""
    if shutil.which("pkg-config") is None:
        return [f"-I{prefix}/include", f"-L{prefix}/lib", "-lwolqedir", *(["-llibc_c"] if options else [])]
    where = {**os.environ, "PKG_CONFIG_PATH": prefix + "/lib/pkgconfig"}
    told_version = told("pkg-config", "--modversion", "wolqedir", env=where).strip()
    assert f'#define WQ_VERSION_TEXT "{told_version}"' in names.read("bindings", "c", "wolqedir.h"), told_version
    return told("pkg-config", "--cflags", "--libs", *options, "wolqedir", env=where).split()


def programs(prefix, folder):
    """The example in C, linked to the shared library and to the archive by what pkg-config says: the commands, and their settings."""
    gcc = ["gcc", "-std=c11", "-Wall", "-Wextra", "-Werror", "examples/library/hello.c"]
    told(*gcc, *flags(prefix), "-o", folder + "/shared")
    archive = [flag.replace("-lwolqedir", "-l:libwolqedir.a") for flag in flags(prefix, "--static")]
    told(*gcc, *archive, "-o", folder + "/static")
    assert "libwolqedir.so.0" in told("readelf", "-d", folder + "/shared")
    yield [folder + "/shared"], {"LD_LIBRARY_PATH": prefix + "/lib"}
    yield [folder + "/static"], {}


def missing(folder):
    """The crate says which variable or which file is missing, in place of the linker. In how many cases."""
    cases = [(None, "WOLQEDIR_LIB isn't there"), (folder + "/nowhere", "no file " + folder + "/nowhere/libwolqedir.a")]
    os.makedirs(folder + "/half")
    with open(folder + "/half/libwolqedir.a", "w"):
        cases.append((folder + "/half", "no file " + folder + "/half/liblibc_c.a"))
    words = ["cargo", "check", "-q", "--offline", "--manifest-path", "bindings/rust/Cargo.toml"]
    for where, text in cases:
        settings = {key: value for key, value in os.environ.items() if key != "WOLQEDIR_LIB"}
        settings.update({"WOLQEDIR_LIB": where} if where else {}, CARGO_TARGET_DIR=folder + "/missing")
        ran = subprocess.run(words, stderr=subprocess.PIPE, text=True, cwd=ROOT, env=settings)
        assert ran.returncode != 0 and text in ran.stderr and "docs/guide/library.md" in ran.stderr, (where, ran.stderr)
    return len(cases)
