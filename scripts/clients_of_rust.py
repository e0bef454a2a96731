"""Clients of the Rust package. For scripts/clients.

Each returns the numbers of what passed, of what differs and is explained in docs/DIFFERENCES.md, and of what differs.
Cargo has no network: packages are those of Debian, and the package of bindings/rust takes the place of encoding_rs.
"""

import os
import re
import shutil
import tarfile

from common import TOP, read, run, run_quietly, write
from programs import build_peer, unpacked

PACKAGE = f"{TOP}/bindings/rust"
REGISTRY = "usr/share/cargo/registry"
RESULT = re.compile(r"^test (\S+)(?: - should panic)? \.\.\. (ok|FAILED|ignored)", re.M)
# Tests of the crate that want what the library does not do; docs/DIFFERENCES.md has why.
EXPLAINED = {"test_utf_16be_decode_near_end", "test_utf_16le_decode_near_end", "tiny_utf16_normal"}
# The suite of Debian that has ripgrep 13, and the packages that its build takes from that suite.
RIPGREP_SUITE = "bookworm"


def sources_of(package):
    """The folder of a Rust package of trixie."""
    [folder] = unpacked("trixie", package)
    [found] = os.scandir(f"{folder}/{REGISTRY}")
    return found.path


def environment(room):
    # (warnings of others' sources say nothing here)
    own = {"ENCODING_C_ARCHIVE": room.archive, "CARGO_TARGET_DIR": room.path("target"), "RUSTFLAGS": "-Awarnings"}
    return {**os.environ, **own}


def config(folder, registry, patched=True):
    """Has cargo take packages from a folder, and encoding_rs from bindings/rust."""
    text = f'[source.crates-io]\nreplace-with = "debian"\n[source.debian]\ndirectory = "{registry}"\n'
    text += f'[patch.crates-io]\nencoding_rs = {{ path = "{PACKAGE}" }}\n' * patched
    write(f"{folder}/.cargo/config.toml", text)


def tested(room, folder, *words):
    """The names of the tests that pass in a package, and of those that fail. One that can't be built has one that fails."""
    said, status = run(["cargo", "test", "--release", "--offline", "--no-fail-fast", *words], cwd=folder, env=environment(room))
    results = RESULT.findall(said)
    passed = [name for name, result in results if result == "ok"]
    failed = [name for name, result in results if result == "FAILED"]
    if status and not failed:
        print(said[-3000:])
        failed.append(f"the build of {os.path.basename(folder)}")
    return passed, failed


def counted(passed, failed):
    """The numbers of a part. Each test that fails is named."""
    explained = [it for it in failed if it.split("::")[-1] in EXPLAINED]
    for it in failed:
        print(f"  {'differs as explained' if it in explained else 'fails'}: {it}")
    return len(passed), len(explained), len(failed) - len(explained)


def rust(room):
    """Single calls of the package beside those of the crate, and its own tests."""
    folder, _ = build_peer("scripts/peer", room.path("peers-over-package"), PACKAGE, environment(room))
    program = room.path("package-calls")
    write(program, f'#!/bin/sh\nexec "{folder}/calls" answers\n')
    os.chmod(program, 0o755)
    alike, differ = room.compare(program, room.calls, room.calls // 5)
    own = room.path("package")
    shutil.copytree(PACKAGE, own, ignore=shutil.ignore_patterns("target"))
    passed, failed = tested(room, own)
    return tuple(map(sum, zip((alike, 0, differ), counted(passed, failed))))


def tests_in(text):
    """The module of tests of a source of the crate, or nothing."""
    found = re.search(r'^#\[cfg\(all\(test, feature = "alloc"\)\)\]\n(mod tests \{.*?^\})', text, re.M | re.S)
    return found and found[1]


def crate_tests(room):
    """The crate's own tests, each module by itself: what it has of the crate within is not there."""
    crate, own = sources_of("librust-encoding-rs-dev"), room.path("crate-tests")
    dependency = f'[dependencies]\nencoding_rs = {{ path = "{PACKAGE}" }}\n'
    write(f"{own}/Cargo.toml", f'[package]\nname = "crate_tests"\nversion = "0.1.0"\nedition = "2018"\n\n{dependency}')
    write(f"{own}/src/lib.rs", "")
    shutil.copytree(f"{crate}/src/test_data", f"{own}/tests/test_data")
    for name in ("testing", "test_labels_names", "data"):
        write(f"{own}/tests/crate/{name}.rs", read(f"{crate}/src/{name}.rs"))
    head = 'extern crate alloc;\n#[allow(unused_imports)]\npub use encoding_rs::*;\n'
    helpers = '#[path = "crate/testing.rs"]\nmod testing;\n'
    labels = '#[path = "crate/test_labels_names.rs"]\nmod test_labels_names;\n'
    # (the tables name a function of the crate's)
    tables = '#[path = "crate/data.rs"]\nmod data;\n'
    tables += "fn in_inclusive_range16(i: u16, start: u16, end: u16) -> bool { (start..=end).contains(&i) }\n"
    passed, failed = [], []
    for source in sorted(os.listdir(f"{crate}/src")):
        module = source.removesuffix(".rs")
        if not source.endswith(".rs") or not (tests := tests_in(read(f"{crate}/src/{source}"))):
            continue
        if module in ("ascii", "mem"):
            # (of what the package leaves out, and of the crate's own loops)
            continue
        # (encodings have an order in the crate's own tests alone)
        body = labels + tests.replace("::alloc::collections::btree_set::BTreeSet", "::std::collections::HashSet") if module == "lib" else f"mod {module} {{\n{tests}\n}}\n"
        write(f"{own}/tests/{module}.rs", head + helpers + (tables if "data::" in tests else "") + body)
        good, bad = tested(room, own, "--test", module)
        passed += good
        failed += [f"{module}::{it}" for it in bad]
    return counted(passed, failed)


def io(room):
    """The tests of encoding_rs_io."""
    own = room.path("encoding_rs_io")
    shutil.copytree(sources_of("librust-encoding-rs-io-dev"), own)
    config(own, room.path("peers/crates"))
    room.crate()
    for name in ("Cargo.lock", ".cargo-checksum.json"):
        if os.path.exists(f"{own}/{name}"):
            os.remove(f"{own}/{name}")
    return counted(*tested(room, own))


def sources_of_ripgrep(room):
    """The sources of ripgrep in a folder, and that of the packages that they are built from."""
    own, registry = room.path("ripgrep"), room.path("ripgrep-crates")
    [folder] = unpacked(RIPGREP_SUITE, "rust-ripgrep", source=True)
    [archive] = (it.path for it in os.scandir(folder) if ".orig.tar" in it.name)
    os.makedirs(own)
    with tarfile.open(archive) as file:
        file.extractall(own, filter="data")
    [sources] = (it.path for it in os.scandir(own) if it.is_dir())
    os.makedirs(registry)
    for package in unpacked(RIPGREP_SUITE, *packages_of_ripgrep(room)):
        # (some packages only name others, and two may have one)
        for it in os.scandir(f"{package}/{REGISTRY}") if os.path.isdir(f"{package}/{REGISTRY}") else ():
            if not os.path.lexists(f"{registry}/{it.name}"):
                os.symlink(it.path, f"{registry}/{it.name}")
    # (an allocator for other C libraries, and a feature of nightly compilers, which Debian leaves out too)
    toml = re.sub(r"^simd-accel.*\n", "", read(f"{sources}/Cargo.toml"), flags=re.M)
    write(f"{sources}/Cargo.toml", re.sub(r"^\[target[^\n]*jemallocator\]\n(?:.+\n)*", "", toml, flags=re.M))
    return sources, registry


def over(room, sources, registry, patched):
    """Has the next build of ripgrep be over the package, or over the crate."""
    config(sources, registry, patched)
    if os.path.exists(f"{sources}/Cargo.lock"):
        os.remove(f"{sources}/Cargo.lock")


def ripgrep(room):
    """ripgrep's tests of itself, over the package and over the crate."""
    sources, registry = sources_of_ripgrep(room)
    results = []
    for patched in (True, False):
        over(room, sources, registry, patched)
        results.append(counted(*tested(room, sources, "--test", "integration")))
    if results[1][2]:
        print("  over the crate some fail too")
    return results[0]


def ripgreps(room):
    """The programs over the crate and over the package."""
    sources, registry = sources_of_ripgrep(room)
    for patched, name in ((False, "rg-crate"), (True, "rg-package")):
        over(room, sources, registry, patched)
        run_quietly(["cargo", "build", "--release", "--offline"], cwd=sources, env=environment(room))
        shutil.copy(f"{room.path('target')}/release/rg", room.path(name))
    return room.path("rg-crate"), room.path("rg-package")


def packages_of_ripgrep(room):
    """The packages that Debian builds ripgrep from, as apt resolves them by lists of its own."""
    own = room.path("apt")
    os.makedirs(f"{own}/lists/partial")
    said = read("/etc/apt/sources.list.d/debian.sources") if os.path.exists("/etc/apt/sources.list.d/debian.sources") else ""
    mirror = (re.findall(r"^URIs: *(\S+)", said, re.M) or ["http://deb.debian.org/debian"])[0]
    key = "[signed-by=/usr/share/keyrings/debian-archive-keyring.gpg]"
    write(f"{own}/suite.list", "".join(f"{it} {key} {mirror} {RIPGREP_SUITE} main\n" for it in ("deb", "deb-src")))
    where = {"Etc::sourcelist": f"{own}/suite.list", "Etc::sourceparts": "/dev/null", "State::lists": f"{own}/lists",
             "Cache": own}
    apt = ["apt-get", *(word for name, path in where.items() for word in ("-o", f"Dir::{name}={path}"))]
    run_quietly([*apt, "-qq", "update"])
    said = run_quietly([*apt, "-s", "build-dep", "ripgrep"])
    return sorted(set(re.findall(r"^Inst (librust-\S+)", said, re.M))) + ["librust-encoding-rs-dev", "librust-cfg-if-dev"]
