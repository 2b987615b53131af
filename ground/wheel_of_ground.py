"""Makes the wheel of ocp_ground for pip, by the standard library alone: `pip install ./ground` needs no network."""
import base64
import hashlib
import sysconfig
import tomllib
import zipfile
from pathlib import Path

HERE = Path(__file__).resolve().parent
PACKAGE = HERE / "ocp_ground"


def build_wheel(folder, config_settings=None, metadata_directory=None):
    if not (PACKAGE / "libocp_ground.so").is_file():
        raise SystemExit("libocp_ground.so is missing: ground/build makes it")
    project = tomllib.loads((HERE / "pyproject.toml").read_text())["project"]
    tag = "py3-none-" + sysconfig.get_platform().replace("-", "_").replace(".", "_")
    begin = f"{PACKAGE.name}-{project['version']}"
    files = {f"{PACKAGE.name}/{one.name}": one.read_bytes() for one in sorted(PACKAGE.iterdir()) if one.suffix in (".py", ".so")}
    metadata = ("Metadata-Version: 2.1", f"Name: {project['name']}", f"Version: {project['version']}", f"Summary: {project['description']}",
                f"Requires-Python: {project['requires-python']}", "")
    scripts = [f"{name} = {call}" for name, call in project["scripts"].items()]
    for name, lines in (("METADATA", metadata), ("WHEEL", ("Wheel-Version: 1.0", "Root-Is-Purelib: false", f"Tag: {tag}", "")),
                        ("entry_points.txt", ("[console_scripts]", *scripts, ""))):
        files[f"{begin}.dist-info/{name}"] = "\n".join(lines).encode()
    rows = []
    with zipfile.ZipFile(Path(folder, f"{begin}-{tag}.whl"), "w", zipfile.ZIP_DEFLATED) as wheel:
        for path, octets in files.items():
            wheel.writestr(path, octets)
            digest = base64.urlsafe_b64encode(hashlib.sha256(octets).digest()).rstrip(b"=").decode()
            rows.append(f"{path},sha256={digest},{len(octets)}\n")
        wheel.writestr(f"{begin}.dist-info/RECORD", "".join(rows) + f"{begin}.dist-info/RECORD,,\n")
    return f"{begin}-{tag}.whl"
