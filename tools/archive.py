"""archive: archives of files by the standard library alone. The same files and time give the same bytes."""
import gzip
import io
import tarfile
from pathlib import Path
from typing import Iterable

# each path with its bytes and its mode
Files = dict[str, tuple[bytes, int]]

# (a link has the path that it leads to as its bytes)
FOLDER_MODE, FILE_MODE, PROGRAM_MODE, LINK_MODE = 0o755, 0o644, 0o755, 0o777


def packed(content: bytes) -> bytes:
    """Returns a gzip of bytes that depends on nothing else."""
    into = io.BytesIO()
    with gzip.GzipFile(fileobj=into, mode="wb", compresslevel=9, mtime=0, filename="") as zipped:
        zipped.write(content)
    return into.getvalue()


def folders_of(paths: Iterable[str]) -> list[str]:
    """Returns the folders above paths, the highest first."""
    return sorted({str(parent) for path in paths for parent in Path(path).parents if str(parent) != "."})


def tar_of(files: Files, when: int) -> bytes:
    """Returns an archive of files, each path with its bytes and its mode, and of the folders above them."""
    plain = io.BytesIO()
    with tarfile.open(fileobj=plain, mode="w", format=tarfile.USTAR_FORMAT) as archive:
        for folder in folders_of(files):
            entry = tarfile.TarInfo(folder)
            entry.type, entry.mode, entry.mtime = tarfile.DIRTYPE, FOLDER_MODE, when
            archive.addfile(entry)
        for path, (content, mode) in files.items():
            entry = tarfile.TarInfo(path)
            entry.mode, entry.mtime = mode, when
            if mode == LINK_MODE:
                entry.type, entry.linkname = tarfile.SYMTYPE, content.decode()
                archive.addfile(entry)
                continue
            entry.size = len(content)
            archive.addfile(entry, io.BytesIO(content))
    return plain.getvalue()
