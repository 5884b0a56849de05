"""What is kept: a folder of entries, each the list of the files of one passed proof with their sums, and the files themselves, once each."""
import contextlib
import fcntl
import hashlib
import json
import os
import shutil
import sys
import tempfile

PIECE = 1 << 20


def stop(why):
    """Ends as the kit does where it refuses to begin."""
    print("kept: " + why, file=sys.stderr, flush=True)
    sys.exit(2)


class Damaged(Exception):
    """What is kept isn't what was kept."""


def sum_of(text):
    return hashlib.sha256(text if isinstance(text, bytes) else text.encode("utf-8", "surrogateescape")).hexdigest()


def sum_of_json(value):
    return sum_of(json.dumps(value, sort_keys=True))


def bytes_of(path):
    """The bytes of a file, or None where there is none."""
    try:
        with open(path, "rb") as it:
            return it.read()
    except OSError:
        return None


def copied(source, to):
    """Copies a file, or only reads it where there is no place to go, and returns the sum of what was read."""
    found = hashlib.sha256()
    with open(source, "rb") as it, open(to or os.devnull, "wb") as made:
        while piece := it.read(PIECE):
            found.update(piece)
            made.write(piece)
    return found.hexdigest()


def files_below(folder):
    """The files below a folder, as paths from there on, sorted."""
    found = []
    for top, folders, names in os.walk(folder):
        folders.sort()
        found += [os.path.relpath("%s/%s" % (top, name), folder) for name in names]
    return sorted(found)


class Store:
    """A folder of entries, each the list of the files of one passed proof with their sums, and of the files themselves, once each, under their sums."""

    def __init__(self, at, bound):
        self.at, self.bound = at, bound
        os.makedirs(os.path.dirname(at), exist_ok=True)
        for part in ("", "/entries", "/files", "/made"):
            os.makedirs(at + part, 0o700, exist_ok=True)
        seen = os.stat(at)
        if seen.st_uid != os.geteuid() or seen.st_mode & 0o022:
            stop("%s is another user's, or others may write there: name a folder of your own in RT_KEPT" % at)

    @contextlib.contextmanager
    def held(self, how):
        """Many may take and keep at once; what is old goes while none does."""
        with open(self.at + "/lock", "w") as it:
            fcntl.flock(it, how)
            yield

    def file(self, name):
        return "%s/files/%s/%s" % (self.at, name[:2], name)

    def entry(self, key):
        return "%s/entries/%s" % (self.at, key)

    def read(self, key):
        """The entry of this key, or None; one that is damaged goes."""
        text = bytes_of(self.entry(key))
        if text is None:
            return None
        head, _, rest = text.partition(b"\n")
        if head.decode(errors="replace") != sum_of(rest):
            self.drop(key)
            return None
        found = json.loads(rest)
        return found if found["key"] == key else None

    def drop(self, *keys):
        for key in keys:
            with contextlib.suppress(OSError):
                os.remove(self.entry(key))

    def has(self, key):
        """Whether the entry is whole, by the lengths of its files."""
        found = self.read(key)
        try:
            return found is not None and all(os.path.getsize(self.file(name)) == size for _, name, size, _ in found["files"])
        except OSError:
            return False

    def keep(self, key, said, folder, paths):
        """Keeps these files of a folder: each under another name first, then the entry, which names them, by a rename."""
        with self.held(fcntl.LOCK_SH), tempfile.TemporaryDirectory(dir=self.at + "/made") as room:
            rows = []
            for number, path in enumerate(paths):
                source = "%s/%s" % (folder, path)
                seen = os.stat(source)
                name = copied(source, "%s/%d" % (room, number))
                place = self.file(name)
                os.makedirs(os.path.dirname(place), 0o700, exist_ok=True)
                # (one that stands there may be damaged, so this one takes its place)
                os.replace("%s/%d" % (room, number), place)
                rows.append([path, name, seen.st_size, seen.st_mode & 0o777])
            rest = json.dumps({"key": key, "said": said, "files": rows}).encode()
            with open(room + "/entry", "wb") as it:
                it.write(sum_of(rest).encode() + b"\n" + rest)
                it.flush()
                os.fsync(it.fileno())
            os.replace(room + "/entry", self.entry(key))
        return rows

    def give(self, key, folder):
        """Puts the files of an entry into a folder, which they make, and returns the entry; None where it isn't kept whole. Nothing is half there."""
        with self.held(fcntl.LOCK_SH):
            found = self.read(key)
            if found is None:
                return None
            try:
                for path, name, size, mode in found["files"]:
                    to = "%s/%s" % (folder, path)
                    os.makedirs(os.path.dirname(to), exist_ok=True)
                    if copied(self.file(name), to) != name:
                        with contextlib.suppress(OSError):
                            os.remove(self.file(name))
                        raise Damaged(name)
                    os.chmod(to, mode)
            except (OSError, Damaged):
                self.drop(key)
                return None
            with contextlib.suppress(OSError):
                os.utime(self.entry(key))
            return found

    def shrink(self):
        """Drops the entries that were taken longest ago until the rest fits, and each file that no entry names. Returns the bytes that stay and how many entries went."""
        with self.held(fcntl.LOCK_EX):
            for name in os.listdir(self.at + "/made"):
                shutil.rmtree("%s/made/%s" % (self.at, name), ignore_errors=True)
            rows = sorted(((os.stat(self.entry(key)).st_mtime_ns, key) for key in os.listdir(self.at + "/entries")), reverse=True)
            stays, bytes_there, gone, is_full = set(), 0, 0, False
            for _, key in rows:
                found = self.read(key)
                new = {name: size for _, name, size, _ in found["files"] if name not in stays} if found else {}
                more = sum(new.values()) + 4096
                is_full = is_full or bytes_there + more > self.bound
                if found is None or is_full:
                    self.drop(key)
                    gone += 1
                    continue
                stays |= set(new)
                bytes_there += more
            for name in files_below(self.at + "/files"):
                if os.path.basename(name) not in stays:
                    os.remove("%s/files/%s" % (self.at, name))
        return bytes_there, gone
