"""What the checks on speed share: folders of random files, a copy with a sync of each file, `sha256sum`, and times and memory of programs."""
import os
import subprocess
import time

PIECE = 65536


def make(folder, count, size):
    """A folder with so many files of so many random bytes."""
    folder.mkdir(parents=True)
    for n in range(count):
        # In pieces: a program that is started has the starter's greatest memory counted as its own.
        with open(folder / f"file{n:05}", "wb") as file:
            for at in range(0, size, PIECE):
                file.write(os.urandom(min(PIECE, size - at)))
    os.sync()


def sync_folder(path):
    folder = os.open(path, os.O_RDONLY)
    os.fsync(folder)
    os.close(folder)


def copy(source, target):
    """Each file in pieces, synced, and then its name."""
    target.mkdir()
    for path in sorted(source.iterdir()):
        with open(path, "rb", buffering=0) as read, open(target / path.name, "wb", buffering=0) as write:
            while piece := read.read(PIECE):
                write.write(piece)
            os.fsync(write.fileno())
        sync_folder(target)


def sum_up(source, target):
    target.mkdir()
    with open(target / "sums", "wb") as sums:
        subprocess.run(["sha256sum", *sorted(source.iterdir())], stdout=sums, check=True)


def timed(work, *given):
    start = time.perf_counter()
    work(*given)
    return time.perf_counter() - start


def measured(words, timeout):
    """What a program printed, its seconds, and the most memory that it had at once, in MiB."""
    start = time.perf_counter()
    process = subprocess.Popen([str(word) for word in words], stdout=subprocess.PIPE, stderr=subprocess.STDOUT)
    try:
        text = process.stdout.read().decode()
        _, status, usage = os.wait4(process.pid, 0)
        process.returncode = os.waitstatus_to_exitcode(status)
    finally:
        process.stdout.close()
        if process.returncode is None:
            process.kill()
            process.wait()
    seconds = time.perf_counter() - start
    if seconds > timeout:
        raise TimeoutError(f"{words[2:]}: {seconds:.0f} s")
    return text, seconds, usage.ru_maxrss / 1024
