"""Builds the package for pip with no network: by the C compiler alone, and no package beside Python's own library.

pip calls `build_wheel` (PEP 517). The module in C is linked with the proved archive, which scripts/build encoding_c
makes; ENCODING_C_ARCHIVE names another one, and CC another compiler. A wheel is for the Python that builds it.
"""

import base64
import glob
import hashlib
import os
import shlex
import subprocess
import sysconfig
import tempfile
import tomllib
import zipfile

HERE = os.path.dirname(os.path.abspath(__file__))
ARCHIVE = os.path.join(HERE, "../../crates/encoding_c/out/libencoding_c.a")
MODULE = "encoding_rs/_calls"


def project():
    with open(f"{HERE}/pyproject.toml", "rb") as file:
        return tomllib.load(file)["project"]


def compiled(to):
    """Compiles the module in C to a file."""
    archive = os.environ.get("ENCODING_C_ARCHIVE", ARCHIVE)
    if not os.path.isfile(archive):
        raise SystemExit(f"{archive} is lacking: see docs/BINDINGS.md")
    compiler = shlex.split(os.environ.get("CC") or "cc")
    includes = [f"-I{sysconfig.get_path('include')}", f"-I{HERE}/../c"]
    subprocess.run([*compiler, "-std=c11", "-O2", "-fPIC", "-shared", *includes, "-o", to, f"{HERE}/src/{MODULE}.c", archive],
                   check=True)


def build_wheel(wheel_directory, config_settings=None, metadata_directory=None):
    own, python = project(), f"cp{sysconfig.get_python_version().replace('.', '')}"
    tag = f"{python}-{python}-{sysconfig.get_platform().replace('-', '_').replace('.', '_')}"
    about = f"Metadata-Version: 2.1\nName: {own['name']}\nVersion: {own['version']}\nSummary: {own['description']}\n"
    about += f"Requires-Python: {own['requires-python']}\n"
    info, name = f"{own['name']}-{own['version']}.dist-info", f"{own['name']}-{own['version']}-{tag}.whl"
    files = {f"encoding_rs/{os.path.basename(it)}": it for it in sorted(glob.glob(f"{HERE}/src/encoding_rs/*.py"))}
    with tempfile.TemporaryDirectory() as room:
        files[MODULE + sysconfig.get_config_var("EXT_SUFFIX")] = f"{room}/module.so"
        files[f"{info}/NOTICE"] = f"{HERE}/../NOTICE"
        compiled(f"{room}/module.so")
        texts = {}
        for path, source in files.items():
            with open(source, "rb") as file:
                texts[path] = file.read()
    texts[f"{info}/METADATA"] = about.encode()
    texts[f"{info}/WHEEL"] = f"Wheel-Version: 1.0\nGenerator: build_backend\nRoot-Is-Purelib: false\nTag: {tag}\n".encode()
    sums = {path: base64.urlsafe_b64encode(hashlib.sha256(it).digest()).rstrip(b"=").decode() for path, it in texts.items()}
    lines = [f"{path},sha256={sums[path]},{len(texts[path])}\n" for path in texts]
    texts[f"{info}/RECORD"] = "".join([*lines, f"{info}/RECORD,,\n"]).encode()
    with zipfile.ZipFile(f"{wheel_directory}/{name}", "w", zipfile.ZIP_DEFLATED) as wheel:
        for path, text in texts.items():
            wheel.writestr(path, text)
    return name
