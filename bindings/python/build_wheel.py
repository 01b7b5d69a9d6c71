"""build_wheel.py LIBRARY DIRECTORY: writes the wheel, with the shared library in it, to the directory; prints its path.

Uses Python's own library alone. pyproject.toml names this file as the build backend; LIBRARY is then what ./library
prints.
"""
import base64
import hashlib
import os
import runpy
import subprocess
import sys
import sysconfig
import zipfile

HERE = os.path.dirname(os.path.abspath(__file__))
ROOT = os.path.dirname(os.path.dirname(HERE))
TAG = "py3-none-" + sysconfig.get_platform().replace("-", "_").replace(".", "_")
METADATA = """Metadata-Version: 2.1
Name: mungkelas
Version: {}
Summary: Reading, writing and standardising genotypes of PLINK .bed files
License: Apache-2.0
Requires-Python: >=3.8
Provides-Extra: numpy
Requires-Dist: numpy; extra == "numpy"
Description-Content-Type: text/markdown

{}"""
WHEEL = """Wheel-Version: 1.0
Generator: mungkelas
Root-Is-Purelib: false
Tag: {}
"""


def _bytes(path):
    with open(path, "rb") as file:
        return file.read()


def _files(library, version, info):
    """What the wheel holds, by name."""
    files = {"mungkelas/" + name: _bytes(os.path.join(HERE, "mungkelas", name))
             for name in sorted(os.listdir(os.path.join(HERE, "mungkelas"))) if name.endswith(".py")}
    files["mungkelas/_version.py"] = '__version__ = "{}"\n'.format(version).encode()
    files["mungkelas/libmungkelas.so"] = _bytes(library)
    for name in ("LICENSE", "NOTICE"):
        if os.path.exists(os.path.join(ROOT, name)):
            files["{}/licenses/{}".format(info, name)] = _bytes(os.path.join(ROOT, name))
    files[info + "/METADATA"] = METADATA.format(version, _bytes(os.path.join(HERE, "README.md")).decode()).encode()
    files[info + "/WHEEL"] = WHEEL.format(TAG).encode()
    return files


def make(library, directory):
    """Writes the wheel and answers its name. The same files give the same bytes."""
    version = runpy.run_path(os.path.join(HERE, "mungkelas", "_version.py"))["__version__"]
    info = "mungkelas-{}.dist-info".format(version)
    files = _files(library, version, info)
    record = ""
    for name, content in files.items():
        digest = base64.urlsafe_b64encode(hashlib.sha256(content).digest()).decode().rstrip("=")
        record += "{},sha256={},{}\n".format(name, digest, len(content))
    files[info + "/RECORD"] = (record + info + "/RECORD,,\n").encode()
    wheel = "mungkelas-{}-{}.whl".format(version, TAG)
    os.makedirs(directory, exist_ok=True)
    with zipfile.ZipFile(os.path.join(directory, wheel), "w") as out:
        for name, content in files.items():
            entry = zipfile.ZipInfo(name)
            entry.compress_type = zipfile.ZIP_DEFLATED
            entry.external_attr = (0o755 if name.endswith(".so") else 0o644) << 16
            out.writestr(entry, content)
    return wheel


def build_wheel(wheel_directory, config_settings=None, metadata_directory=None):
    ran = subprocess.run([os.path.join(HERE, "library")], check=True, stdout=subprocess.PIPE)
    return make(ran.stdout.decode().strip(), wheel_directory)


if __name__ == "__main__":
    print(os.path.join(sys.argv[2], make(sys.argv[1], sys.argv[2])))
