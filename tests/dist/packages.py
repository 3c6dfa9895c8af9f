"""Checks of the archive, the Debian package and `make installed`."""

from __future__ import annotations

import functools
import hashlib
import os
import re
import shutil
import subprocess
import tarfile
import tempfile
from pathlib import Path

from checks import ROOT, Skip, need, programs, said, tells_its_version, version

EPOCH = 1_700_000_000
ARCHIVE = f"faultyard-{version()}-linux-x86_64"
PACKAGE = f"faultyard_{version()}_amd64.deb"
SHARED = f"libfaultyard.so.{version()}"

# What a user of the archive looks for; release/layout isn't asked.
COMMANDS = ("judge", "run", "check", "swarm", "simulate", "guard", "show", "bears", "config")
TOOLS = ("nemesis", "serve", "lossy", "config-check", "sweep", "shrink")
WANTED = [
    "bin/faultyard",
    *(f"bin/faultyard-{it}" for it in TOOLS),
    "include/faultyard.h",
    "include/faultyard.hpp",
    "lib/libfaultyard.a",
    "lib/libfaultyard.so",
    "lib/libfaultyard.so.1",
    "lib/pkgconfig/faultyard.pc",
    "lib/cmake/faultyard/faultyard-config.cmake",
    "lib/systemd/system/faultyard-serve@.service",
    "share/bash-completion/completions/faultyard",
    "share/zsh/site-functions/_faultyard",
    "share/fish/vendor_completions.d/faultyard.fish",
    "share/doc/faultyard/README.md",
    "share/doc/faultyard/CHANGELOG.md",
    "share/doc/faultyard/LICENSE",
    "share/doc/faultyard/SECURITY.md",
    "share/doc/faultyard/docs/FORMATS.md",
    "share/doc/faultyard/docs/GUARD.md",
    "share/doc/faultyard/examples/c6.toml",
    "share/doc/faultyard/examples/redis/hooks",
    "share/faultyard/bindings/cpp/README.md",
    "share/faultyard/bindings/go/go.mod",
    "share/faultyard/bindings/python/pyproject.toml",
    "share/faultyard/bindings/rust/Cargo.toml",
    "share/man/man1/faultyard.1",
    *(f"share/man/man1/faultyard-{it}.1" for it in COMMANDS + TOOLS),
]
TAKEN = [
    "CHANGELOG.md",
    "LICENSE",
    "README.md",
    "SECURITY.md",
    "bin",
    "bindings",
    "docs",
    "examples",
    "include",
    "mkdocs.yml",
    "release",
    "tests/README.md",
    "tools",
    "crates",  # of which pages are made
    "crates.txt",
]


def environment(**more: str) -> dict[str, str]:
    return {**os.environ, "SOURCE_DATE_EPOCH": str(EPOCH), **more}


@functools.cache
def room() -> Path:
    """A folder that is removed when the checks end."""
    holder = tempfile.TemporaryDirectory(prefix="faultyard-dist-")
    KEPT.append(holder)
    return Path(holder.name)


KEPT: list[tempfile.TemporaryDirectory[str]] = []


@functools.cache
def dist() -> Path:
    need("dpkg-deb")
    said("release/dist", room() / "dist", env=environment())
    return room() / "dist"


@functools.cache
def unpacked() -> Path:
    with tarfile.open(dist() / f"{ARCHIVE}.tar.gz") as archive:
        archive.extractall(room() / "unpacked")
    return room() / "unpacked" / ARCHIVE


@functools.cache
def unpacked_package() -> Path:
    said("dpkg-deb", "--raw-extract", dist() / PACKAGE, room() / "package")
    return room() / "package"


def files_below(folder: Path) -> dict[str, bytes]:
    """The bytes of each file below a folder; a link's are those of its target's name."""
    return {
        str(path.relative_to(folder)): os.readlink(path).encode()
        if path.is_symlink()
        else path.read_bytes()
        for path in folder.rglob("*")
        if path.is_symlink() or path.is_file()
    }


def copied(name: str) -> Path:
    """A folder with all that goes into a release, known to a git of its own."""
    copy = room() / name
    for part in TAKEN:
        source, target = ROOT / part, copy / part
        target.parent.mkdir(parents=True, exist_ok=True)
        if source.is_dir():
            shutil.copytree(source, target, symlinks=True, ignore=shutil.ignore_patterns("out"))
        else:
            shutil.copy(source, target)
    (copy / ".gitignore").write_text("bin/\ntarget/\n")
    said("git", "init", "--quiet", cwd=copy)
    said("git", "add", "--all", cwd=copy)
    return copy


def same_bytes_twice() -> None:
    """The same bytes in another folder and git, by another umask, time zone and language."""
    copy = copied("a copy")
    script = "umask 077; release/dist ../again"
    said(
        "bash",
        "-c",
        script,
        cwd=copy,
        env=environment(TZ="Asia/Tokyo", LC_ALL="C.UTF-8", HOME="/nonexistent"),
    )
    first, second = files_below(dist()), files_below(room() / "again")
    assert sorted(first) == sorted([f"{ARCHIVE}.tar.gz", PACKAGE, "SHA256SUMS"]), sorted(first)
    assert first == second, [name for name in first if first[name] != second.get(name)]
    said("bash", "-c", "SOURCE_DATE_EPOCH=1700000001 release/dist ../later", cwd=copy)
    later = files_below(room() / "later")
    assert all(
        later[name] != first[name] for name in first
    ), "the time of the release doesn't count"


def sums_of(path: Path) -> dict[str, str]:
    """The sum of each file that a list names."""
    rows = [line.split("  ") for line in path.read_text().splitlines()]
    return {name: told for told, name in rows}


def sums_are_those_of_the_files() -> None:
    sums = sums_of(dist() / "SHA256SUMS")
    assert sorted(sums) == sorted([f"{ARCHIVE}.tar.gz", PACKAGE])
    for name, told in sums.items():
        assert hashlib.sha256((dist() / name).read_bytes()).hexdigest() == told, name


def archive_has_its_layout() -> None:
    with tarfile.open(dist() / f"{ARCHIVE}.tar.gz") as archive:
        members = {it.name: it for it in archive.getmembers()}
    for name in WANTED:
        assert f"{ARCHIVE}/{name}" in members, f"the archive has no {name}"
    assert list(members) == sorted(members, key=lambda it: it.split("/")), "the names aren't sorted"
    for name, it in members.items():
        assert name == ARCHIVE or name.startswith(f"{ARCHIVE}/"), name
        assert (it.uid, it.gid, it.mtime) == (0, 0, EPOCH), f"{name}: {it.uid} {it.gid} {it.mtime}"
        runs = it.isdir() or name.startswith(f"{ARCHIVE}/bin/")
        assert it.issym() or it.mode in (
            (0o755,) if runs else (0o644, 0o755)
        ), f"{name}: {it.mode:o}"
    assert members[f"{ARCHIVE}/lib/libfaultyard.so.1"].linkname == SHARED


def need_mkdocs() -> None:
    need("mkdocs")
    if "material" not in said("mkdocs", "build", "--help"):
        raise Skip("mkdocs-material")


def archive_has_the_site() -> None:
    """Each page and what it needs, and little else."""
    need_mkdocs()
    site = unpacked() / "share/doc/faultyard/html"
    there = {name: held.decode(errors="replace") for name, held in files_below(site).items()}
    for name in ("index", "docs/GUARD", "docs/CONTRIBUTING", "examples/etcd/index"):
        assert f"{name}.html" in there, f"the site has no {name}.html"
    for name in filter(lambda it: it.endswith(".html"), there):
        for link in re.findall(r' (?:href|src)="([^"#?:&]+)["#?]', there[name]):
            target = (site / name).parent / link
            assert target.exists(), f"{name}: {link} isn't in the site"
    assert "search/search_index.json" in there
    useless = [it for it in there if it.endswith(".map") or "sitemap" in it]
    assert not useless, useless
    assert sum(map(len, there.values())) < 5 << 20, "the site has over 5 MiB"


def without_mkdocs_there_is_no_site() -> None:
    """And all else is there, and a line says why."""
    folder = room() / "no mkdocs"
    folder.mkdir()
    (folder / "mkdocs").write_text("#!/bin/sh\nexit 1\n")
    (folder / "mkdocs").chmod(0o755)
    env = environment(PATH=f"{folder}:{os.environ['PATH']}")
    words = ["release/install", room() / "no site", ""]
    ran = subprocess.run(words, cwd=ROOT, env=env, capture_output=True, text=True)
    assert ran.returncode == 0 and "without the pages as a site" in ran.stderr, ran
    html = "share/doc/faultyard/html/"
    wanted = {it for it in files_below(unpacked()) if not it.startswith(html)}
    found = set(files_below(room() / "no site"))
    assert found == wanted, found ^ wanted


def package_has_the_files_of_the_archive() -> None:
    moved = [
        (r"^lib/(libfaultyard|pkgconfig|cmake)", r"lib/x86_64-linux-gnu/\1"),
        (r"^share/zsh/site-functions", "share/zsh/vendor-completions"),
        (r"^(share/man/.*)$", r"\1.gz"),
    ]
    wanted = set()
    for name in files_below(unpacked()):
        for old, new in moved:
            name = re.sub(old, new, name)
        wanted.add(name)
    found = files_below(unpacked_package() / "usr")
    own = {
        "share/doc/faultyard/copyright",
        "share/doc/faultyard/changelog.gz",
        "share/lintian/overrides/faultyard",
    }
    assert set(found) == wanted | own, set(found) ^ (wanted | own)
    for name, held in files_below(unpacked()).items():
        if name in found and not name.endswith(".pc"):
            assert found[name] == held, f"{name} differs"


def package_tells_the_truth() -> None:
    control = dict(
        line.split(": ", 1)
        for line in (unpacked_package() / "DEBIAN/control").read_text().splitlines()
        if line[0] != " "
    )
    assert control["Version"] == version()
    sums = sums_of(unpacked_package() / "DEBIAN/md5sums")
    files = {f"usr/{name}": held for name, held in files_below(unpacked_package() / "usr").items()}
    links = {f"usr/lib/x86_64-linux-gnu/{it}" for it in ("libfaultyard.so", "libfaultyard.so.1")}
    assert set(sums) == set(files) - links
    assert all(hashlib.md5(files[name]).hexdigest() == told for name, told in sums.items())
    rights = (unpacked_package() / "usr/share/doc/faultyard/copyright").read_text()
    assert "\nCopyright: " in rights and "\nFiles: *\n" in rights
    files = rights.partition("\nFiles: *\n")[2].partition("\n\n")[0]
    assert "\nLicense: Apache-2.0" in files, f"the package's licence isn't that of LICENSE: {files}"
    assert "Apache License" in (unpacked_package() / "usr/share/doc/faultyard/LICENSE").read_text()


def package_needs_what_its_files_need() -> None:
    need("objdump")
    control = (unpacked_package() / "DEBIAN/control").read_text()
    tree = unpacked_package() / "usr"
    told = [
        said("objdump", "-p", path)
        for path in (
            tree / "bin/faultyard",
            tree / "bin/faultyard-lossy",
            tree / "lib/x86_64-linux-gnu" / SHARED,
        )
    ]
    libraries = {it for text in told for it in re.findall(r"^  NEEDED +(\S+)", text, re.MULTILINE)}
    assert libraries <= {"libc.so.6", "ld-linux-x86-64.so.2"}, libraries
    versions = [
        tuple(map(int, it.split(".")))
        for text in told
        for it in re.findall(r"GLIBC_(\d[\d.]*)", text)
    ]
    newest = ".".join(map(str, max(versions)))
    python = any(
        (tree / "bin" / it).read_bytes().startswith(b"#!/usr/bin/env python3") for it in programs()
    )
    wanted = f"libc6 (>= {newest})" + (", python3:any" if python else "")
    assert f"\nDepends: {wanted}\n" in control, f"the files need {wanted}"


def lintian_finds_nothing() -> None:
    need("lintian")
    ran = subprocess.run(
        ["lintian", "--allow-root", dist() / PACKAGE], capture_output=True, text=True
    )
    found = [line for line in ran.stdout.splitlines() if re.match(r"[EW]:", line)]
    assert ran.returncode == 0 and not found, "\n".join([*found, ran.stderr])


def library_exports_the_header() -> None:
    need("objdump")
    header = (ROOT / "include/faultyard.h").read_text()
    declared = set(re.findall(r"^(?:uint32_t|size_t|void) (fy_\w+)\(", header, re.MULTILINE))
    assert len(declared) >= 10, declared
    path = unpacked() / "lib" / SHARED
    rows = [
        line.split()
        for line in said("objdump", "-T", path).splitlines()
        if " g " in line and "*UND*" not in line
    ]
    exported = {row[-1] for row in rows if "*ABS*" not in row}
    assert exported == declared, exported ^ declared
    assert re.search(r"^  SONAME +libfaultyard\.so\.1$", said("objdump", "-p", path), re.MULTILINE)


def archive_runs_where_it_lies() -> None:
    """The tools find the program beside them, and nothing else of faultyard is on the PATH."""
    examples = unpacked() / "share/doc/faultyard/examples"
    env = {"PATH": "/usr/bin:/bin", "HOME": str(room())}
    for name in programs():
        tells_its_version(name, unpacked() / "bin" / name, env)
    script = examples / "two-zones.jsonl"
    fails = ["sh", "-c", '! grep -q z1 "$1"', "sh"]
    left = said(
        unpacked() / "bin/faultyard-shrink", f"{examples}/c6.toml", script, "--", *fails, env=env
    )
    assert left == script.read_text().splitlines(keepends=True)[1], left
    for name in programs():
        assert said(unpacked() / "bin" / name, "--help", env=env).strip(), name


def archive_sweeps() -> None:
    need("parallel")
    env = {"PATH": "/usr/bin:/bin", "HOME": str(room())}
    config = unpacked() / "share/doc/faultyard/examples/c6.toml"
    linked = room() / "sweep of a user"
    linked.symlink_to(unpacked() / "bin/faultyard-sweep")
    table = said(linked, config, "3", "4", room() / "swept", env=env)
    assert "| seeds done, of 2 | 2 |\n| bad | 0 |\n" in table, table


def archive_is_found_by_pkg_config() -> None:
    need("pkg-config")
    env = environment(PKG_CONFIG_PATH=str(unpacked() / "lib/pkgconfig"))
    assert said("pkg-config", "--modversion", "faultyard", env=env).strip() == version()
    include, library = said(
        "pkg-config", "--cflags-only-I", "--libs-only-L", "faultyard", env=env
    ).split()
    assert (Path(include.removeprefix("-I")) / "faultyard.h").is_file(), include
    assert (Path(library.removeprefix("-L")) / "libfaultyard.so").is_file(), library


def archive_is_found_by_cmake() -> None:
    """And a program builds by each of its targets, and runs."""
    need("cmake", "cc")
    config = unpacked() / "share/doc/faultyard/examples/c6.toml"
    major = int(version().partition(".")[0])
    (room() / "verdict.c").write_text((ROOT / "tests/dist/verdict.c").read_text())
    for target, version_asked in (("faultyard", major), ("static", version())):
        source, built = room() / f"CMakeLists.{target}", room() / f"by-{target}"
        source.mkdir()
        (source / "CMakeLists.txt").write_text(
            "cmake_minimum_required(VERSION 3.13)\nproject(verdict C)\n"
            f"find_package(faultyard {version_asked} REQUIRED)\n"
            "add_executable(verdict ../verdict.c)\n"
            f"target_link_libraries(verdict PRIVATE faultyard::{target})\n"
        )
        said("cmake", "-S", source, "-B", built, f"-DCMAKE_PREFIX_PATH={unpacked()}")
        said("cmake", "--build", built)
        told = subprocess.run([built / "verdict"], stdin=config.open(), capture_output=True)
        assert told.stdout == b"a reboot, by policy 0\n", (target, told)
    (source / "CMakeLists.txt").write_text(
        "cmake_minimum_required(VERSION 3.13)\nproject(verdict C)\n"
        f"find_package(faultyard {major + 1} QUIET)\n"
        'message(STATUS "of a later version: ${faultyard_FOUND}")\n'
    )
    told = said("cmake", "-S", source, "-B", room() / "later", f"-DCMAKE_PREFIX_PATH={unpacked()}")
    assert "of a later version: 0" in told, told


def archive_has_a_unit_that_systemd_accepts() -> None:
    """With the path of the archive's server. And what it may do is little."""
    need("systemd-analyze")
    unit, made = "faultyard-serve@.service", room() / "faultyard-serve@x.service"
    text = (unpacked() / "lib/systemd/system" / unit).read_text()
    assert text.count("ExecStart=faultyard-serve ") == 1, text
    made.write_text(text.replace("ExecStart=", f"ExecStart={unpacked()}/bin/"))
    assert said("systemd-analyze", "verify", "--man=no", made) == ""
    # In tenths: 20 of 100 is what systemd calls OK, and 90 a unit without a limit.
    said("systemd-analyze", "security", "--offline=true", "--no-pager", "--threshold=15", made)


def archive_serves_cpp_and_go() -> None:
    need("c++", "go", "pkg-config")
    env = environment(PKG_CONFIG_PATH=str(unpacked() / "lib/pkgconfig"))
    flags = said("pkg-config", "--cflags", "--libs", "faultyard", env=env).split()
    source, program = room() / "open.cpp", room() / "open"
    source.write_text('#include <faultyard.hpp>\nint main() { faultyard::Guard(""); }\n')
    said("c++", "-std=c++17", source, *flags, "-o", program)
    env |= {"GOCACHE": f"{room()}/go", "GOPATH": f"{room()}/go", "GOENV": "off", "GOPROXY": "off"}
    package = unpacked() / "share/faultyard/bindings/go"
    said("go", "build", "-mod=readonly", ".", cwd=package, env=env)


def archive_builds_the_python_package() -> None:
    need("pip3")
    package, site = unpacked() / "share/faultyard/bindings/python", room() / "site"
    words = "--quiet --isolated --no-index --disable-pip-version-check --root-user-action ignore"
    said("pip3", "install", *words.split(), "--target", site, package)
    env = environment(PYTHONPATH=str(site))
    said("python3", "-c", "import faultyard; faultyard.Guard", env=env, cwd=room())


def archive_builds_the_rust_crate() -> None:
    """And all its tests pass, on the library that pkg-config finds."""
    need("cargo", "rustc", "pkg-config")
    env = environment(
        PKG_CONFIG_PATH=str(unpacked() / "lib/pkgconfig"), CARGO_TARGET_DIR=str(room() / "rust")
    )
    env.pop("FAULTYARD_LIB_DIR", None)
    crate = unpacked() / "share/faultyard/bindings/rust"
    before = files_below(crate)
    told = said("cargo", "test", "--offline", "--locked", cwd=crate, env=env)
    assert re.search(r"^test result: ok\. [1-9]\d* passed; 0 failed", told, re.MULTILINE), told
    assert files_below(crate) == before, "the build wrote into the crate"


def installed_and_uninstalled() -> None:
    root = room() / "installed"
    said(
        "make",
        "--no-print-directory",
        "installed",
        f"DESTDIR={root}",
        "PREFIX=/opt/faultyard",
        env=environment(),
    )
    assert set(files_below(root / "opt/faultyard")) == set(
        files_below(unpacked())
    ), "another layout than the archive's"
    assert (
        "prefix=/opt/faultyard\n" in (root / "opt/faultyard/lib/pkgconfig/faultyard.pc").read_text()
    )
    (root / "opt/faultyard/bin/another").write_text("of another package")
    said(
        "make",
        "--no-print-directory",
        "uninstall",
        f"DESTDIR={root}",
        "PREFIX=/opt/faultyard",
        env=environment(),
    )
    assert list(files_below(root)) == ["opt/faultyard/bin/another"], files_below(root)
    assert sorted(it.name for it in (root / "opt/faultyard").iterdir()) == [
        "bin"
    ], "empty folders are left"


def nothing_without_its_files() -> None:
    """A wrong program, and a file that is missing: status 1, and no file is left."""
    copy = copied("incomplete")
    (copy / "bin/faultyard").write_text("#!/bin/sh\necho faultyard 0.0.1\n")
    for missing in (None, copy / "bin/libfaultyard.a"):
        if missing:
            missing.unlink()
        ran = subprocess.run(
            [copy / "release/dist", room() / "none"],
            env=environment(),
            capture_output=True,
            text=True,
        )
        assert ran.returncode == 1 and ran.stderr.startswith("release/dist: "), ran.stderr
        assert not (room() / "none").exists()


CHECKS = [
    same_bytes_twice,
    sums_are_those_of_the_files,
    archive_has_its_layout,
    archive_has_the_site,
    without_mkdocs_there_is_no_site,
    package_has_the_files_of_the_archive,
    package_tells_the_truth,
    package_needs_what_its_files_need,
    lintian_finds_nothing,
    library_exports_the_header,
    archive_runs_where_it_lies,
    archive_sweeps,
    archive_is_found_by_pkg_config,
    archive_is_found_by_cmake,
    archive_has_a_unit_that_systemd_accepts,
    archive_serves_cpp_and_go,
    archive_builds_the_python_package,
    archive_builds_the_rust_crate,
    installed_and_uninstalled,
    nothing_without_its_files,
]
