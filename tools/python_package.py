#!/usr/bin/env python3
"""Builds the Python package, by the standard library alone.

    tools/python_package.py extension      python/yazgoulm/_native..so for this Python, where it isn't newer than its
                                           sources. 77: there is no compiler, or no Python.h; ctypes serves then
    tools/python_package.py wheel FOLDER   a wheel for this Python, with liblq.so inside; prints its name
    tools/python_package.py sdist FOLDER   what the wheel is built of, with the library; prints its name
    tools/python_package.py commands FOLDER PLACE
                                           the package's commands in a folder, for a package that is in PLACE

It is the build backend of pyproject.toml too, so `pip install .` works without a download, and `pip install -e .`
takes the clone's own package. CC names the compiler."""
import base64, glob, hashlib, importlib.util, io, os, shutil, subprocess, sys, sysconfig, tarfile, zipfile

TOP = os.path.dirname(os.path.dirname(os.path.realpath(__file__)))
PACKAGE = f"{TOP}/python/yazgoulm"
NATIVE = f"{PACKAGE}/_native{sysconfig.get_config_var('EXT_SUFFIX')}"


def sources():
    """The package's own module on what the extension is built of. It is loaded by itself, without the package."""
    spec = importlib.util.spec_from_file_location("_sources", f"{PACKAGE}/_sources.py")
    module = importlib.util.module_from_spec(spec)
    spec.loader.exec_module(module)
    return module


def is_built(path, wanted):
    """Whether an extension is built of these sources: it has their sum in it."""
    try:
        with open(path, "rb") as file:
            return wanted.encode() in file.read()
    except FileNotFoundError:
        return False


def build_extension():
    """Builds the extension where it is missing, or of other sources. Returns why there is none, or None."""
    compiler, headers = os.environ.get("CC") or "cc", sysconfig.get_path("include")
    wanted = sources().sum_of_files()
    if is_built(NATIVE, wanted):
        return None
    if not shutil.which(compiler):
        return f"there is no {compiler}"
    if not os.path.exists(f"{headers}/Python.h"):
        return f"{headers} has no Python.h"
    new = f"{NATIVE}.{os.getpid()}"
    words = ["-std=gnu99", "-O2", "-fPIC", "-shared", "-Wall", "-Wextra", "-Werror", f"-I{TOP}/include", f"-I{headers}"]
    subprocess.run([compiler, *words, f'-DSOURCES="{wanted}"', f"{PACKAGE}/_native.c", "-o", new, "-ldl"], check=True)
    os.replace(new, NATIVE)
    return None


def said_by(*words):
    """What a script of tools/ prints, without its last LF."""
    return subprocess.run([f"{TOP}/tools/{words[0]}", *words[1:]], stdout=subprocess.PIPE, text=True, check=True).stdout.strip()


def facts(part):
    """The fields of a part of pyproject.toml that are texts."""
    with open(f"{TOP}/pyproject.toml", encoding="utf-8") as file:
        lines = file.read().partition(f"[{part}]\n")[2].partition("\n[")[0].splitlines()
    return {name: value.strip('"') for name, _, value in (line.partition(" = ") for line in lines) if value[:1] == '"'}


def package_files():
    """The paths of the package's files but for what is built, below PACKAGE."""
    found = glob.glob(f"{PACKAGE}/**/*.py", recursive=True) + glob.glob(f"{PACKAGE}/folder/page/*")
    return sorted(os.path.relpath(path, PACKAGE) for path in [*found, f"{PACKAGE}/py.typed"])


def read(path):
    with open(path, "rb") as file:
        return file.read()


def metadata():
    """The package's name, version and summary, as wheels and source distributions have them."""
    it = facts("project")
    return (
        f"Metadata-Version: 2.1\nName: {it['name']}\nVersion: {it['version']}\nSummary: {it['description']}\n"
        f"Requires-Python: {it['requires-python']}\n"
    ).encode()


def extension_or_word():
    """Builds the extension. What is missing for it is said, and returned."""
    missing = build_extension()
    if missing:
        print(f"python_package: {missing}, so the package calls the library by ctypes", file=sys.stderr)
    return missing


def build_wheel(wheel_directory, config_settings=None, metadata_directory=None):
    """Writes the wheel into a folder, and returns its name."""
    library = f"{said_by('take', 'library')}/{said_by('soname')}"
    missing = extension_or_word()
    paths = {f"yazgoulm/{name}": f"{PACKAGE}/{name}" for name in package_files()}
    paths.update({f"yazgoulm/{os.path.basename(path)}": path for path in [library, *([] if missing else [NATIVE])]})
    return write_wheel(wheel_directory, {name: read(path) for name, path in sorted(paths.items())}, missing)


def build_editable(wheel_directory, config_settings=None, metadata_directory=None):
    """Writes a wheel that has a path to the clone's package alone, and returns its name."""
    said_by("take", "library")  # so that the clone has one
    return write_wheel(wheel_directory, {"yazgoulm.pth": f"{TOP}/python\n".encode()}, extension_or_word())


def build_sdist(sdist_directory, config_settings=None):
    """Writes what the wheel is built of, with the program's library as it was taken, and returns its name."""
    library, it = said_by("take", "library"), facts("project")
    top = f"{it['name']}-{it['version']}"
    paths = {name: f"{TOP}/{name}" for name in ("pyproject.toml", "README.md", "crates.txt")}
    paths.update({f"release/{name}": f"{library}/{name}" for name in ("liblq.a", "liblq.sources", said_by("soname"))})
    for name in ("KIT", "NOTICE"):
        paths[f"release/{name}"] = f"{TOP}/release/{name}"
    for path in [*glob.glob(f"{TOP}/tools/*"), *sources().files(), *(f"{PACKAGE}/{name}" for name in package_files())]:
        if os.path.isfile(path):
            paths[os.path.relpath(path, TOP)] = path
    for line in read(f"{library}/liblq.sources").decode().splitlines():
        if not line.startswith("#"):
            name = line.split("  ", 1)[1]
            paths[name] = f"{TOP}/{name}"
    files = {f"{top}/PKG-INFO": metadata(), **{f"{top}/{name}": read(path) for name, path in sorted(paths.items())}}
    sums = {name: hashlib.sha256(text).hexdigest() for name, text in files.items() if name.startswith(f"{top}/release/")}
    files[f"{top}/release/SHA256SUMS"] = "".join(f"{it}  {os.path.basename(name)}\n" for name, it in sums.items()).encode()
    os.makedirs(sdist_directory, exist_ok=True)
    name = f"{top}.tar.gz"
    with tarfile.open(os.path.join(sdist_directory, name), "w:gz", format=tarfile.PAX_FORMAT) as archive:
        for path, text in files.items():
            entry = tarfile.TarInfo(path)
            entry.size, entry.mtime = len(text), 315532800
            entry.mode = 0o755 if text.startswith(b"#!") else 0o644
            archive.addfile(entry, io.BytesIO(text))
    return name


def write_wheel(wheel_directory, files, missing):
    """Writes a wheel with these files, by their names in it. `missing` says why it has no extension, or is None."""
    python = "py3-none" if missing else "cp{0}{1}-cp{0}{1}".format(*sys.version_info)
    tag = f"{python}-{sysconfig.get_platform().replace('-', '_').replace('.', '_')}"
    it = facts("project")
    info = f"yazgoulm-{it['version']}.dist-info"
    if os.path.exists(f"{TOP}/release/NOTICE"):
        files[f"{info}/licenses/NOTICE"] = read(f"{TOP}/release/NOTICE")
    files[f"{info}/METADATA"] = metadata()
    commands = "".join(f"{name} = {to}\n" for name, to in facts("project.scripts").items())
    files[f"{info}/entry_points.txt"] = f"[console_scripts]\n{commands}".encode()
    files[f"{info}/WHEEL"] = f"Wheel-Version: 1.0\nGenerator: yazgoulm\nRoot-Is-Purelib: false\nTag: {tag}\n".encode()
    record = ""
    for name, bytes_of in files.items():
        hashed = base64.urlsafe_b64encode(hashlib.sha256(bytes_of).digest()).rstrip(b"=").decode()
        record += f"{name},sha256={hashed},{len(bytes_of)}\n"
    files[f"{info}/RECORD"] = f"{record}{info}/RECORD,,\n".encode()
    wheel = f"yazgoulm-{it['version']}-{tag}.whl"
    os.makedirs(wheel_directory, exist_ok=True)
    with zipfile.ZipFile(os.path.join(wheel_directory, wheel), "w", zipfile.ZIP_DEFLATED) as file:
        for name, bytes_of in files.items():
            entry = zipfile.ZipInfo(name, (1980, 1, 1, 0, 0, 0))
            entry.external_attr = (0o755 if name.endswith(".so") else 0o644) << 16
            file.writestr(entry, bytes_of, zipfile.ZIP_DEFLATED)
    return wheel


def write_commands(folder, place):
    """Writes each command as a script that finds the package in its place."""
    for name, to in facts("project.scripts").items():
        module, _, call = to.partition(":")
        path = os.path.join(folder, name)
        with open(path, "w", encoding="utf-8") as file:
            file.write(f"#!/usr/bin/env python3\nimport sys\n\nsys.path.insert(0, {place!r})\n"
                       f"from {module} import {call}\n\nsys.exit({call}())\n")
        os.chmod(path, 0o755)


def main(words):
    if words == ["extension"]:
        missing = build_extension()
        if missing:
            print(f"python_package: {missing}, so no extension was built", file=sys.stderr)
            return 77
    elif len(words) == 2 and words[0] in ("wheel", "sdist"):
        build = build_wheel if words[0] == "wheel" else build_sdist
        print(os.path.join(words[1], build(words[1])))
    elif len(words) == 3 and words[0] == "commands":
        write_commands(words[1], words[2])
    else:
        sys.exit(__doc__)
    return 0


if __name__ == "__main__":
    sys.exit(main(sys.argv[1:]))
