"""Writes the files of an installation, with a list of them, and removes what such a list names."""

import contextlib
import os

from program import Refusal

MANIFEST = "lib/gevacq/manifest"
FILE, FOLDER = "file", "folder"


def make_folders(root, path, made):
    """Makes the folders above a file, and notes those that weren't there."""
    wanted = os.path.dirname(path)
    missing = []
    while wanted and not os.path.isdir(f"{root}/{wanted}"):
        missing.append(wanted)
        wanted = os.path.dirname(wanted)
    for folder in reversed(missing):
        os.mkdir(f"{root}/{folder}")
        os.chmod(f"{root}/{folder}", 0o755)
        made.append(folder)


def place(path, data, mode):
    """Writes a file whole: one that runs goes on with the old one, and a reader never sees a part."""
    new = f"{path}.new"
    with open(new, "wb") as file:
        file.write(data)
    os.chmod(new, mode)
    os.rename(new, path)


def write(root, files):
    """Writes these files below the root. Those of an earlier installation that aren't among them go."""
    earlier = entries(root) if os.path.isfile(f"{root}/{MANIFEST}") else []
    made = [path for kind, path in earlier if kind == FOLDER]
    if not os.path.isdir(root):
        os.makedirs(root)
        made.append(".")
    make_folders(root, MANIFEST, made)
    for path in files:
        make_folders(root, path, made)
    # (the list comes first: where a write fails, what was written can be removed)
    paths = [path for kind, path in earlier if kind == FILE] + list(files)
    note(root, dict.fromkeys(paths), made)
    for path, (data, mode) in files.items():
        place(f"{root}/{path}", data, mode)
    for kind, path in earlier:
        if kind == FILE and path not in files:
            with contextlib.suppress(FileNotFoundError):
                os.remove(f"{root}/{path}")
    note(root, files, [path for path in made if os.path.isdir(f"{root}/{path}")])


def note(root, files, folders):
    lines = [f"{FILE} {path}\n" for path in files] + [f"{FOLDER} {path}\n" for path in folders]
    place(f"{root}/{MANIFEST}", "".join(lines).encode(), 0o644)


def entries(root):
    """What the list names; it names nothing outside the root."""
    found = []
    with open(f"{root}/{MANIFEST}", encoding="utf-8") as file:
        for line in file:
            kind, _, path = line.rstrip("\n").partition(" ")
            if kind not in (FILE, FOLDER) or not path or path.startswith("/") or ".." in path.split("/"):
                raise Refusal(f"{root}/{MANIFEST} isn't a list of what was installed")
            found.append((kind, path))
    return found


def remove(root):
    """Removes what was installed below the root; gives the folders that it made and that aren't empty."""
    if not os.path.isfile(f"{root}/{MANIFEST}"):
        raise Refusal(f"nothing is installed in {root}: there is no {MANIFEST}")
    listed = entries(root)
    for path in [path for kind, path in listed if kind == FILE] + [MANIFEST]:
        with contextlib.suppress(FileNotFoundError):
            os.remove(f"{root}/{path}")
    left = []
    for folder in sorted((path for kind, path in listed if kind == FOLDER), key=len, reverse=True):
        path = os.path.normpath(f"{root}/{folder}")
        try:
            os.rmdir(path)
        except FileNotFoundError:
            pass
        except OSError:
            left.append(path)
    return left
