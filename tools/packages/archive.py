"""Archives and folders that are the same byte for byte whenever and wherever they are made of the same files: names in order, one time, no user."""
import gzip
import io
import os
import tarfile

import version


class Content(bytes):
    """The bytes of a file that may be run."""


class Link(bytes):
    """A symbolic link: where it leads to."""


def read(path):
    with open(path, "rb") as it:
        its = it.read()
    return Content(its) if os.access(path, os.X_OK) else its


def read_folder(folder, into=""):
    """The files below a folder, by their names in an archive, without what is made there."""
    files = {}
    for at, folders, names in os.walk(folder):
        folders[:] = [name for name in folders if name not in ("__pycache__", "out", "target")]
        for name in names:
            if name != "Cargo.lock":
                path = os.path.join(at, name)
                files[os.path.join(into, os.path.relpath(path, folder))] = read(path)
    return files


def mode_of(content):
    return 0o755 if isinstance(content, Content) else 0o644


def write_folder(files, folder):
    """Writes files below a folder, each of the time of the release."""
    for name, content in files.items():
        path = os.path.join(folder, name)
        os.makedirs(os.path.dirname(path), exist_ok=True)
        if isinstance(content, Link):
            os.symlink(content.decode(), path)
            continue
        with open(path, "wb") as it:
            it.write(content)
        os.chmod(path, mode_of(content))
        os.utime(path, (version.time(), version.time()))


def write_whole(path, content):
    """Writes a file, all of it or nothing."""
    os.makedirs(os.path.dirname(path) or ".", exist_ok=True)
    with open(path + ".new", "wb") as it:
        it.write(content)
    os.replace(path + ".new", path)
    print("%s, %d bytes" % (path, len(content)), flush=True)


def write_tar(path, files, top):
    """Writes a tarball with these files in a folder of its own."""
    packed = io.BytesIO()
    with tarfile.open(fileobj=packed, mode="w", format=tarfile.GNU_FORMAT) as it:
        for name in sorted(files):
            entry = tarfile.TarInfo("%s/%s" % (top, name))
            entry.size, entry.mtime, entry.mode = len(files[name]), version.time(), mode_of(files[name])
            it.addfile(entry, io.BytesIO(files[name]))
    write_whole(path, gzip.compress(packed.getvalue(), mtime=version.time()))
