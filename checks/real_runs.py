"""What the checks on the built program share: runs on real folders, and the bytes of libraries as docs/formats.md has them."""
import hashlib
import pathlib
import struct
import subprocess
import sys

sys.dont_write_bytecode = True

ROOT = pathlib.Path(__file__).resolve().parent.parent
PROGRAM = ROOT / "crates" / "cmsite" / "out" / "cmsite"
EMPTY_LOGS = {
    "PkgLib/log.0": bytes.fromhex("01 01 0100000000000000 00"),
    "PkgLib/log.1": bytes.fromhex("00 01 0000000000000000 00"),
    "PkgLib/ready": b"",
}
# New records of a site: the same logs in a shelf of their own.
EMPTY_RECORDS = {place.replace("PkgLib", "Site"): content for place, content in EMPTY_LOGS.items()}
THREE = {"a.txt": b"abc", "bin/empty": b"", "readme": b"hello"}


def is_built():
    return PROGRAM.is_file()


def run(base, folder, *words, given=b""):
    """The status and the text of one run with this input. Nothing is ever printed on standard error."""
    done = subprocess.run([str(PROGRAM), str(base), str(folder), *words], input=given, capture_output=True, timeout=60)
    if done.stderr:
        sys.exit(f"{words}: standard error has {done.stderr!r}")
    return done.returncode, done.stdout.decode()


def files_below(folder):
    """Each file below a folder, by its path, with its bytes."""
    found = {}
    for path in sorted(folder.rglob("*")):
        if path.is_file():
            found[path.relative_to(folder).as_posix()] = path.read_bytes()
    return found


def write_folder(folder, files):
    folder.mkdir(parents=True, exist_ok=True)
    for path, content in files.items():
        place = folder / path
        place.parent.mkdir(parents=True, exist_ok=True)
        place.write_bytes(content)


def manifest_of(entries):
    """A manifest by its form: `CMDL`, form 1, the count, and of each entry its path, size and SHA-256, by path."""
    entries = sorted((path.encode(), size, digest) for path, size, digest in entries)
    parts = [b"CMDL\x01", struct.pack("<I", len(entries))]
    for name, size, digest in entries:
        parts += [bytes([len(name)]), name, struct.pack("<I", size), digest]
    return b"".join(parts)


def manifest(files):
    """The manifest of a folder's files."""
    return manifest_of((path, len(content), hashlib.sha256(content).digest()) for path, content in files.items())


def opened(job, package, version, entries, text):
    """The body of the record that a job was opened for a version whose manifest has this text."""
    body = b"\x01" + struct.pack("<Q", job) + package.encode() + struct.pack("<III", version, entries, len(text))
    return body + hashlib.sha256(text).digest()


def done(job):
    """The body of the record that a job was done."""
    return b"\x02" + struct.pack("<Q", job)


def dropped(job):
    """The body of the record that a job was dropped."""
    return b"\x03" + struct.pack("<Q", job)


def log_with(bodies):
    text = bytes.fromhex("01 01 0100000000000000")
    for body in bodies:
        text += b"\x01" + struct.pack("<I", len(body)) + body
    return text + b"\x00"


def library_of(packages):
    """The places of a library to which these packages were added, one after another, each with its files."""
    places = {"PkgLib/log.1": EMPTY_LOGS["PkgLib/log.1"], "PkgLib/ready": b""}
    bodies = []
    for number, (package, files) in enumerate(packages, 1):
        text = manifest(files)
        bodies += [opened(number, package, 1, len(files), text), done(number)]
        places[f"DataLib/{package}.1"] = text
        for content in files.values():
            places[f"FileLib/{hashlib.sha256(content).hexdigest()}"] = content
    places["PkgLib/log.0"] = log_with(bodies)
    return {f"site/{place}": content for place, content in places.items()}
