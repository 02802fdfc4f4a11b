"""The trees of logs and maps by Python's hashlib, from the documents alone: roots, paths, and a registry's pages."""

import base64
import hashlib
import itertools


def sha256(*parts):
    return hashlib.sha256(b"".join(parts)).digest()


EMPTY = [*itertools.accumulate(range(256), lambda below, _: sha256(b"\1", below, below), initial=sha256(b"\0"))]


def root(digests):
    """The root over leaf digests (RFC 6962, section 2.1); an odd last digest of a row goes up as it is."""
    row = digests
    while len(row) > 1:
        row = [sha256(b"\1", *row[at : at + 2]) if at + 1 < len(row) else row[at] for at in range(0, len(row), 2)]
    return row[0] if row else sha256()


def path(index, digests):
    """The inclusion path (RFC 6962, section 2.1.1)."""
    if len(digests) < 2:
        return []
    half = 1 << (len(digests) - 1).bit_length() - 1
    near, far = (digests[:half], digests[half:]) if index < half else (digests[half:], digests[:half])
    return [*path(index % half, near), root(far)]


def sparse(leaves, depth):
    """The digest of the sparse tree over leaves by key digest, below a prefix of so many bits."""
    if not leaves or depth == 256:
        return next(iter(leaves.values()), EMPTY[256 - depth])
    sides = ({}, {})
    for key, it in leaves.items():
        sides[key[depth >> 3] >> (7 - (depth & 7)) & 1][key] = it
    return sha256(b"\1", *(sparse(side, depth + 1) for side in sides))


def pages(leaves, versions, prefix=b""):
    """Yields path and bytes of the page at a prefix that keys share, and of those below it."""
    slots, depth = b"", len(prefix)
    for byte in sorted({key[depth] for key in leaves}):
        below = {key: it for key, it in leaves.items() if key[depth] == byte}
        version, is_lone = max(versions[key] for key in below), len(below) == 1
        slots += bytes([byte, is_lone]) + version.to_bytes(8, "big") + sparse(below, 8 * depth + 8)
        slots += b"".join(next(iter(below.items()))) if is_lone else b""
        yield from () if is_lone else pages(below, versions, prefix + bytes([byte]))
    if leaves:
        yield "/".join(["map", *(f"x{byte:02x}" for byte in prefix), str(max(versions[key] for key in leaves))]), slots


def add_map(folder, insertions):
    """Makes a registry of the log of these insertions: adds the pages, and the map's root to the checkpoint."""
    leaves = {sha256(key): sha256(b"\0", value) for key, value in insertions}
    versions = {sha256(key): 1 + index for index, (key, _) in enumerate(insertions)}
    for name, slots in pages(leaves, versions):
        (folder / name).parent.mkdir(parents=True, exist_ok=True)
        (folder / name).write_bytes(slots)
    text = (folder / "checkpoint").read_text()
    (folder / "checkpoint").write_text(f"{text}map {base64.b64encode(sparse(leaves, 0)).decode()}\n")
