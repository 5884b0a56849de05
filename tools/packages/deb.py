"""The Debian packages: of the folder debian/, which says what each is and what it has, built by dpkg-deb alone; tools/dist calls it. Where debhelper is installed,
dpkg-buildpackage builds them too, of a copy of that folder at the root of the sources."""
import gzip
import os
import re
import shutil
import subprocess
import tempfile

import archive
import version
import wheel

FOLDER = "tools/packages/debian"
PYTHON = "lib/python3/dist-packages/onfiseq/"


def stage(installed, folder):
    """Writes what the packages have below a folder, where it stands once it is installed."""
    files = {"usr/" + name: content for name, content in installed.items() if not name.endswith("libonfiseq.so")}
    files.update({"usr/" + PYTHON + name: content for name, content in wheel.package().items()})
    files["usr/" + PYTHON + "libonfiseq.so"] = bytes(installed["lib/libonfiseq.so"])
    files["usr/" + PYTHON + "onfiseq"] = archive.Link(b"../../../../bin/onfiseq")
    archive.write_folder(files, folder)


def paragraphs():
    """What control says of each package, by its name."""
    found = archive.read(FOLDER + "/control").decode().split("\n\n")[1:]
    return {re.match(r"Package: (\S+)", text)[1]: text.strip() + "\n" for text in found}


def told(words):
    return subprocess.run(words, check=True, stdout=subprocess.PIPE, text=True).stdout.strip()


def control_of(text, size):
    """What stands in a package of its paragraph: this machine's architecture, and the C library that it was linked with."""
    libc = told(["dpkg-query", "-W", "-f", "${Version}", "libc6"]).split("-")[0]
    text = text.replace("${shlibs:Depends}", "libc6 (>= %s)" % libc).replace("${binary:Version}", version.number())
    text = re.sub(r"(?m)^Depends: \$\{misc:Depends\}\n|, \$\{misc:Depends\}", "", text)
    source = archive.read(FOLDER + "/control").decode().split("\n\n")[0]
    fields = re.findall(r"(?m)^(?:Maintainer|Priority%s): .*\n" % ("" if "\nSection: " in text else "|Section"), source)
    head = "Version: %s\n%sInstalled-Size: %d\n" % (version.number(), "".join(fields), size // 1024 + 1)
    return re.sub(r"(?m)^Architecture: any\n", "Architecture: %s\n" % told(["dpkg", "--print-architecture"]) + head, text)


def documents():
    """The files that every package has."""
    return {"copyright": archive.read("LICENSE"), "changelog.gz": gzip.compress(archive.read(FOLDER + "/changelog"), mtime=0)}


def copy(staged, top, path):
    source, target = "%s/%s" % (staged, path), "%s/%s" % (top, path)
    os.makedirs(os.path.dirname(target), exist_ok=True)
    if os.path.isdir(source):
        shutil.copytree(source, target, symlinks=True)
    else:
        shutil.copy2(source, target)


def fill(name, staged, top):
    """Copies the paths that a package's list names, and packs its manual page."""
    for path in archive.read("%s/%s.install" % (FOLDER, name)).decode().split():
        copy(staged, top, path)
    page = top + "/usr/share/man/man1/onfiseq.1"
    if os.path.isfile(page):
        archive.write_folder({"onfiseq.1.gz": gzip.compress(archive.read(page), mtime=0)}, os.path.dirname(page))
        os.remove(page)
    archive.write_folder(documents(), "%s/usr/share/doc/%s" % (top, name))


def pack(name, text, top, folder):
    """Writes one package, all of it or nothing."""
    size = sum(os.lstat(os.path.join(at, it)).st_size for at, _, names in os.walk(top) for it in names)
    archive.write_folder({"control": control_of(text, size).encode()}, top + "/DEBIAN")
    for at, folders, _ in os.walk(top):
        for it in [at] + [os.path.join(at, it) for it in folders]:
            os.chmod(it, 0o755)
            os.utime(it, (version.time(), version.time()))
    path = "%s/%s_%s_%s.deb" % (folder, name, version.number(), told(["dpkg", "--print-architecture"]))
    names = {**os.environ, "SOURCE_DATE_EPOCH": str(version.time())}
    subprocess.run(["dpkg-deb", "--root-owner-group", "--build", top, path + ".new"], check=True, stdout=subprocess.DEVNULL, env=names)
    os.replace(path + ".new", path)
    print("%s, %d bytes" % (path, os.path.getsize(path)), flush=True)


def write(installed, folder):
    if shutil.which("dpkg-deb") is None:
        print("dist: skipped: the Debian packages, as dpkg-deb isn't installed")
        return
    with tempfile.TemporaryDirectory() as room:
        stage(installed, room + "/staged")
        for name, text in paragraphs().items():
            if name != "libonfiseq-dev" and "bin/onfiseq" not in installed:
                print("dist: skipped: the Debian package %s, as there is no release/program" % name)
                continue
            fill(name, room + "/staged", "%s/%s" % (room, name))
            pack(name, text, "%s/%s" % (room, name), folder)
