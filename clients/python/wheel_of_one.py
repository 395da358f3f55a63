"""Makes the wheel that `pip install ./clients/python` installs: dimboetu.py alone. It needs no other package.

pip calls `build_wheel`, since pyproject.toml names this module.
"""

import base64
import hashlib
import os
import tomllib
import zipfile

HERE = os.path.dirname(os.path.abspath(__file__))
WHEEL = "Wheel-Version: 1.0\nGenerator: wheel_of_one\nRoot-Is-Purelib: true\nTag: py3-none-any\n"


def contents():
    """The name of the wheel, and the files in it."""
    with open(os.path.join(HERE, "pyproject.toml"), "rb") as file:
        project = tomllib.load(file)["project"]
    with open(os.path.join(HERE, "dimboetu.py"), encoding="utf-8") as file:
        module = file.read()
    name = f"{project['name']}-{project['version']}"
    about = (f"Metadata-Version: 2.1\nName: {project['name']}\nVersion: {project['version']}\n"
             f"Summary: {project['description']}\nRequires-Python: {project['requires-python']}\n")
    return name, {"dimboetu.py": module, f"{name}.dist-info/METADATA": about, f"{name}.dist-info/WHEEL": WHEEL}


def build_wheel(folder, config_settings=None, metadata_directory=None):
    """Writes the wheel into this folder, and answers its file's name."""
    name, files = contents()
    record = ""
    for path, text in files.items():
        digest = base64.urlsafe_b64encode(hashlib.sha256(text.encode("utf-8")).digest()).rstrip(b"=").decode("ascii")
        record += f"{path},sha256={digest},{len(text.encode('utf-8'))}\n"
    path = f"{name}.dist-info/RECORD"
    with zipfile.ZipFile(os.path.join(folder, f"{name}-py3-none-any.whl"), "w") as wheel:
        for each, text in {**files, path: f"{record}{path},,\n"}.items():
            wheel.writestr(each, text)
    return f"{name}-py3-none-any.whl"
