#!/usr/bin/env python3
"""Writes the uncompressed kernel of a bzImage to a file. qemu boots it without a processor's work for the
decompression, which would be emulated. The exit status is 1 if qemu could not: the compression is not xz, gzip or
zstd, or the kernel has no entry for PVH.

usage: bindings/kernel/vmlinux.py BZIMAGE FILE"""
import lzma
import struct
import subprocess
import sys
import zlib
from pathlib import Path

XZ, GZIP, ZSTD = b"\xfd7zXZ\0", b"\x1f\x8b", b"\x28\xb5\x2f\xfd"
PVH = [struct.pack("<III4s", 4, size, 18, b"Xen") for size in (4, 8)]  # XEN_ELFNOTE_PHYS32_ENTRY


def main():
    image = Path(sys.argv[1]).read_bytes()
    # the boot protocol of x86: the number of sectors of the setup, and the place and the length of the payload behind it
    at, length = struct.unpack_from("<II", image, 0x248)
    at += (image[0x1F1] + 1) * 512
    payload = image[at : at + length]
    if payload.startswith(XZ):
        kernel = lzma.LZMADecompressor().decompress(payload)
    elif payload.startswith(GZIP):
        kernel = zlib.decompressobj(31).decompress(payload)
    elif payload.startswith(ZSTD):
        # (the size of the kernel is behind it)
        kernel = subprocess.run(["zstd", "--quiet", "--decompress"], input=payload[:-4], stdout=subprocess.PIPE, check=True).stdout
    else:
        sys.exit(1)
    if not any(note in kernel for note in PVH):
        sys.exit(1)
    Path(sys.argv[2]).write_bytes(kernel)


main()
