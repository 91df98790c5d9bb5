"""Makes a Debian package of what is installed."""

import email.utils
import gzip
import hashlib
import os
import re
import shutil
import tempfile
import textwrap

import layout
import moment
import program as programs

MAINTAINER = "Viptaus maintainers <maintainers@users.noreply.viptaus.example>"
DOCUMENTS = "share/doc/gevacq"
CONTROL = """\
Package: gevacq
Version: {version}
Architecture: {architecture}
Maintainer: {maintainer}
Installed-Size: {kilobytes}
Depends: libc6 (>= {library})
Recommends: python3
Suggests: ffmpeg, moreutils
Section: science
Priority: optional
Description: receive the images of GigE Vision cameras, and tell lost frames
 gevacq takes images of a GigE Vision camera from the datagrams of its
 stream, asks for lost packets again, and hands out each buffer with what is
 proved of it: whether its image is whole, and where each received byte lies.
 It lists the cameras of a network, reads their descriptions, simulates a
 camera, and tells of a capture which frames were lost, and why.{trial}
"""
TRIAL = """
 .
 This package has a trial of the program, of which nothing is proved."""


def packed(data):
    """Packed by gzip, the same bytes each time."""
    return gzip.compress(data, 9, mtime=0)


def stripped(program, room):
    """The program without the names and notes that it doesn't need in order to run."""
    made = f"{room}/stripped"
    programs.run("strip", "--strip-unneeded", "--remove-section=.comment", "--remove-section=.note", "-o", made, program)
    return made


def changes(top, version, package_version, date):
    """The changelog of the package, of what CHANGELOG.md says of this version."""
    page = layout.read(f"{top}/CHANGELOG.md").decode()
    found = re.search(rf"(?ms)^## {re.escape(version)}\n(.*?)(?=^## |\Z)", page)
    items = [" ".join(it.split()) for it in re.split(r"(?m)^- ", found[1])[1:]] if found else []
    width = {"width": 78, "initial_indent": "  * ", "subsequent_indent": "    ", "break_long_words": False}
    lines = [textwrap.fill(it, **width) for it in items or ["This version."]]
    signed = f" -- {MAINTAINER}  {email.utils.formatdate(date)}"
    return "\n".join([f"gevacq ({package_version}) unstable; urgency=medium", "", *lines, "", signed, ""])


class Package:
    """The files of a package, and its control file."""

    def __init__(self, top, program, is_trial, room):
        self.date = moment.moment(top)
        made = layout.Layout(top, program, is_trial, "/usr", moment.day(self.date))
        bare = stripped(program, room)
        self.version = made.version + ("~trial" if is_trial else "")
        self.files = {path: it for path, it in made.files.items() if not path.startswith("share/man/")}
        for path, (data, mode) in made.files.items():
            if path.startswith("share/man/"):
                self.files[f"{path}.gz"] = packed(data), mode
        self.adds(layout.PROGRAM, layout.read(bare), 0o755)
        self.adds(f"{DOCUMENTS}/what_was_proved", programs.what_was_proved(top, program, is_trial, bare).encode())
        self.adds(f"{DOCUMENTS}/changelog.gz", packed(changes(top, made.version, self.version, self.date).encode()))
        self.adds(f"{DOCUMENTS}/copyright", layout.filled("copyright", YEAR=moment.day(self.date)[:4]))
        self.control = CONTROL.format(
            version=self.version, architecture=programs.architecture(bare), maintainer=MAINTAINER, library=programs.least_library(bare),
            kilobytes=sum(-(-len(data) // 1024) for data, _ in self.files.values()), trial=TRIAL if is_trial else "")

    def adds(self, path, data, mode=0o644):
        self.files[path] = data, mode

    def writes(self, room):
        """Lays the files out below a folder, as dpkg-deb takes them."""
        sums = "".join(f"{hashlib.md5(data).hexdigest()}  usr/{path}\n" for path, (data, _) in sorted(self.files.items()))
        written = {f"usr/{path}": it for path, it in self.files.items()}
        written["DEBIAN/control"] = self.control.encode(), 0o644
        written["DEBIAN/md5sums"] = sums.encode(), 0o644
        for path, (data, mode) in written.items():
            os.makedirs(f"{room}/{os.path.dirname(path)}", exist_ok=True)
            with open(f"{room}/{path}", "wb") as file:
                file.write(data)
            os.chmod(f"{room}/{path}", mode)
        for place, _, _ in os.walk(room):
            os.chmod(place, 0o755)


def package(top, program, is_trial, folder):
    """Makes the package in the folder, and gives its path."""
    for tool in ("dpkg-deb", "strip"):
        if not shutil.which(tool):
            raise programs.Refusal(f"there is no {tool} here")
    os.makedirs(folder, exist_ok=True)
    with tempfile.TemporaryDirectory(prefix="gevacq-package-") as room:
        made = Package(top, program, is_trial, room)
        path = f"{folder}/gevacq_{made.version}_{programs.architecture(program)}.deb"
        made.writes(f"{room}/files")
        programs.run("dpkg-deb", "--root-owner-group", "-Zxz", "--build", f"{room}/files", path, SOURCE_DATE_EPOCH=str(made.date))
    return path
