"""Writes a tree of files as an archive or a Debian package: the same bytes for the same files and the same moment."""

import gzip
import io
import os
import shutil
import subprocess
import tarfile
import tempfile

# Names of files and folders that aren't packed: outputs of builds and runs, tests, and Git's list of ignored files
LEFT = ("out", "__pycache__", "target", "tests", ".gitignore")


class Tree:
    """The files and the links of an archive, by their paths; and the paths of those files that are programs."""

    def __init__(self):
        self.files, self.links, self.programs = {}, {}, set()

    def add(self, path, data, is_program=False):
        self.files[path] = data.encode() if isinstance(data, str) else data
        if is_program:
            self.programs.add(path)

    def add_file(self, source, path):
        with open(source, "rb") as file:
            self.add(path, file.read(), os.access(source, os.X_OK))

    def add_folder(self, source, path):
        """Adds the files of a folder and of the folders in it, except for the names in LEFT."""
        for folder, folders, names in os.walk(source):
            folders[:] = [name for name in folders if name not in LEFT]
            for name in (name for name in names if name not in LEFT):
                inner = os.path.relpath(os.path.join(folder, name), source)
                self.add_file(os.path.join(folder, name), os.path.join(path, inner))

    def write_into(self, folder, moment):
        """Writes all files and links into a folder. `moment` is the time of files and folders, in seconds since 1970.
        """
        for path, data in self.files.items():
            target = os.path.join(folder, path)
            os.makedirs(os.path.dirname(target), exist_ok=True)
            with open(target, "wb") as file:
                file.write(data)
            os.chmod(target, 0o755 if path in self.programs else 0o644)
        for path, link in self.links.items():
            os.makedirs(os.path.dirname(os.path.join(folder, path)), exist_ok=True)
            os.symlink(link, os.path.join(folder, path))
        for inner, _, names in os.walk(folder, topdown=False):
            for path in (*(os.path.join(inner, name) for name in names), inner):
                if not os.path.islink(path):
                    os.utime(path, (moment, moment))
            os.chmod(inner, 0o755)


def tar_bytes(tree, top, moment):
    """A tar with all files and links in the folder `top`. `moment` is their time, in seconds since 1970."""
    packed = io.BytesIO()
    with tarfile.open(fileobj=packed, mode="w", format=tarfile.PAX_FORMAT) as archive:
        for path in sorted([*tree.files, *tree.links]):
            member = tarfile.TarInfo(f"{top}/{path}")
            member.mtime, member.mode = moment, 0o755 if path in tree.programs else 0o644
            if path in tree.links:
                member.type, member.linkname, member.mode = tarfile.SYMTYPE, tree.links[path], 0o777
                archive.addfile(member)
            else:
                member.size = len(tree.files[path])
                archive.addfile(member, io.BytesIO(tree.files[path]))
    return packed.getvalue()


def write_tar(tree, top, target, moment):
    """Writes a tar.gz with all files and links in the folder `top`. `moment` is their time, in seconds since 1970."""
    with open(f"{target}.new", "wb") as file, gzip.GzipFile("", "wb", 9, file, moment) as packed:
        packed.write(tar_bytes(tree, top, moment))
    os.replace(f"{target}.new", target)


def write_deb(tree, control, shlibs, target, moment):
    """Writes a Debian package. `control` has its fields, except for the size, and `shlibs` its shared libraries.
    `moment` is the time of all files, in seconds since 1970.
    """
    size = sum(-(-len(data) // 1024) for data in tree.files.values())
    with tempfile.TemporaryDirectory() as folder:
        inner = os.path.join(folder, "package")
        tree.write_into(inner, moment)
        os.makedirs(os.path.join(inner, "DEBIAN"))
        with open(os.path.join(inner, "DEBIAN", "control"), "w") as file:
            file.write("".join(f"{name}: {value}\n" for name, value in {**control, "Installed-Size": size}.items()))
        # the loader finds a shared library by its cache
        for name, text in (("triggers", "activate-noawait ldconfig\n"), ("shlibs", shlibs)):
            with open(os.path.join(inner, "DEBIAN", name), "w") as file:
                file.write(text)
        for path in ("DEBIAN/control", "DEBIAN/triggers", "DEBIAN/shlibs", "DEBIAN", "."):
            os.utime(os.path.join(inner, path), (moment, moment))
        made = os.path.join(folder, "package.deb")
        subprocess.run(["dpkg-deb", "--root-owner-group", "-Zgzip", "--build", inner, made], check=True,
                       stdout=subprocess.DEVNULL, env={**os.environ, "SOURCE_DATE_EPOCH": str(moment)})
        shutil.copyfile(made, f"{target}.new")
    os.replace(f"{target}.new", target)
