"""The formats of gmbench, read anew: the last sector of a component, what a dump and a taste say, and keys and labels.

Nothing here is taken from gmbench's own code or output: it is written from the description of the bytes and the texts.
"""

import hashlib
import struct

MAGIC = b"GEOM::MIRROR" + bytes(4)
LETTERS = b"ABCDEFGHIJKLMNOPQRSTUVWXYZabcdefghijklmnopqrstuvwxyz0123456789._-"
BALANCES = ["none", "round-robin", "load", "split", "prefer"]
MIRROR_FLAGS = [(1, "NOAUTOSYNC"), (2, "NOFAILSYNC")]
DISK_FLAGS = [(1, "DIRTY"), (2, "SYNCHRONIZING"), (4, "FORCE_SYNC"), (8, "INACTIVE")]
# name, offset, size
FIELDS = [
    ("version", 16, 4), ("mid", 36, 4), ("did", 40, 4), ("all", 44, 1), ("genid", 45, 4), ("syncid", 49, 4),
    ("priority", 53, 1), ("slice", 54, 4), ("balance", 58, 1), ("mediasize", 59, 8), ("sectorsize", 67, 4),
    ("sync_offset", 71, 8), ("mflags", 79, 8), ("dflags", 87, 8), ("provsize", 111, 8),
]
# For each version: how many bytes before the hash it has, which are those that the hash is of; and the bits of the mirror's
# flags. Version 2 ends before the size of the provider.
VERSIONS = {2: (111, 1), 3: (119, 1), 4: (119, 3)}


def is_of_letters(text, most):
    return 1 <= len(text) <= most and all(byte in LETTERS for byte in text)


def is_label(text):
    return is_of_letters(text, 15)


def is_key(text):
    return is_of_letters(text, 32)


def padded(text):
    return text + bytes(16 - len(text))


def unpadded(field):
    """The label of a field of 16 bytes, or None."""
    text = field.split(b"\0", 1)[0]
    return text if is_label(text) and padded(text) == field else None


def hashed(version):
    """How many bytes the hash is of; for a number that is no version, as for version 4."""
    return VERSIONS.get(version, VERSIONS[4])[0]


def encode(said):
    """The sector of these fields in their version, with the hash that they have."""
    sector = bytearray(512)
    sector[0:16] = said["magic"]
    sector[20:36] = said["name"]
    sector[95:111] = said["provider"]
    for name, at, size in FIELDS:
        if at + size <= hashed(said["version"]):
            sector[at : at + size] = said[name].to_bytes(size, "little")
    return rehashed(sector)


def rehashed(sector):
    sector = bytearray(sector)
    end = hashed(int.from_bytes(sector[16:20], "little"))
    sector[end : end + 16] = hashlib.md5(sector[:end]).digest()
    return bytes(sector)


def numbers(sector):
    return {name: int.from_bytes(sector[at : at + size], "little") for name, at, size in FIELDS}


def decode(sector):
    """What a sector says, or the number of the first fault that it has."""
    said = numbers(sector)
    if sector[:16] != MAGIC:
        return 1
    if said["version"] not in VERSIONS:
        return 2
    end, mirror_bits = VERSIONS[said["version"]]
    if sector[end : end + 16] != hashlib.md5(sector[:end]).digest():
        return 3
    if end == 111:
        said["provsize"] = 0
    said["name"] = unpadded(sector[20:36])
    if said["name"] is None:
        return 4
    field = sector[95:111]
    said["provider"] = b"" if field == bytes(16) else unpadded(field)
    if said["provider"] is None:
        return 5
    if said["balance"] >= len(BALANCES):
        return 6
    if said["mflags"] & ~mirror_bits or said["dflags"] & ~15:
        return 7
    if said["sectorsize"] != 512:
        return 8
    said["hash"] = sector[end : end + 16].hex()
    return said


def flags(value, names):
    return ",".join(name for bit, name in names if value & bit) or "NONE"


def dump(sector):
    """What a dump prints of a last sector, and the status with which it ends."""
    said = decode(sector)
    if isinstance(said, int):
        return f"fault {said}\n", 1
    lines = ["magic: GEOM::MIRROR", f"version: {said['version']}", f"name: {said['name'].decode()}"]
    lines += [f"{name}: {said[name]}" for name in ["mid", "did", "all", "genid", "syncid", "priority", "slice"]]
    lines += [f"balance: {BALANCES[said['balance']]}", f"mediasize: {said['mediasize']}", "sectorsize: 512"]
    lines += [f"sync_offset: {said['sync_offset']}", f"mflags: {flags(said['mflags'], MIRROR_FLAGS)}"]
    lines += [f"dflags: {flags(said['dflags'], DISK_FLAGS)}", f"provider: {said['provider'].decode() or '(none)'}"]
    lines += [f"provsize: {said['provsize']}", f"md5: {said['hash']}"]
    return "".join(f"{line}\n" for line in lines), 0


def state(said, genid, syncid):
    """The state of a member of a group, and the offset of one that isn't filled."""
    waits = said["mflags"] & 1 and not said["dflags"] & 4
    if said["dflags"] & 8:
        return "INACTIVE", None
    if said["genid"] < genid:
        return "BROKEN", None
    if said["syncid"] < syncid:
        return "STALE" if waits else "SYNCHRONIZING", 0
    if said["dflags"] & 2:
        return "STALE" if waits else "SYNCHRONIZING", said["sync_offset"]
    return "ACTIVE", None


def left_out(name, sector, size):
    """What is said of an image that is left out, whether that counts as damage, and what one that isn't says."""
    said = decode(sector) if sector is not None else 1
    if said == 1:
        return "no metadata", False, None
    if isinstance(said, int):
        return f"fault {said}", True, None
    if said["provider"] not in (b"", name):
        return "names another image", True, None
    if said["provsize"] not in (0, size):
        return "tells another size", True, None
    return None, False, said


def group_lines(name, mid, members):
    """The lines of a group: members are pairs of a name and what its sector says, in order."""
    genid = max(said["genid"] for _, said in members)
    syncid = max(said["syncid"] for _, said in members if said["genid"] == genid)
    lines = [f"{name.decode():<15} mid {mid} genid {genid} syncid {syncid}"]
    active = []
    for provider, said in members:
        its, offset = state(said, genid, syncid)
        filled = "" if offset is None else f" {offset // 512} of {said['mediasize'] // 512}"
        dirty = said["dflags"] & 1
        lines.append(f"  {provider.decode():<15} {its}{filled}{' DIRTY' if dirty else ''}")
        if its == "ACTIVE":
            active.append((-said["priority"], provider, dirty))
    doubt = ", but none is sure: each ACTIVE one is DIRTY" if active and all(dirty for _, _, dirty in active) else ""
    lines.append(f"  source: {min(active)[1].decode() if active else '(none)'}{doubt}")
    return lines


def taste(images):
    """What a taste prints of images, which are a name, a last sector and a size each, and how it ends."""
    groups, left, damage = {}, [], False
    for name, sector, size in sorted(images):
        reason, damaged, said = left_out(name, sector, size)
        damage |= damaged
        if said is None:
            left.append(f"  {name.decode():<15} {reason}")
        else:
            groups.setdefault((said["name"], said["mid"]), []).append((name, said))
    lines = [line for key in sorted(groups) for line in group_lines(*key, groups[key])] or ["no mirrors"]
    if left:
        lines += ["left out:", *left]
    return "".join(f"{line}\n" for line in lines), int(damage)
