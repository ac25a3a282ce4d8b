"""iPXE and U-Boot: guests that boot over the network."""

from __future__ import annotations

import os
import random
import shlex
import shutil
import tempfile
import zlib
from typing import Callable, TYPE_CHECKING

import needs
from machine import Machine

if TYPE_CHECKING:
    from argparse import Namespace

WAYS = ("kernel", "rom", "uefi")
LKRN = "/usr/lib/ipxe/ipxe.lkrn"
ROM, UEFI_ROM = "/usr/lib/ipxe/qemu/pxe-e1000.rom", "/usr/lib/ipxe/qemu/efi-e1000.rom"
FIRMWARE, VARIABLES = "/usr/share/OVMF/OVMF_CODE_4M.fd", "/usr/share/OVMF/OVMF_VARS_4M.fd"
UBOOT = "/usr/lib/u-boot/qemu-x86/u-boot.rom"
# The files that each guest needs besides QEMU, and the packages that contain them
FILES = {
    "kernel": {LKRN: "ipxe"},
    "rom": {ROM: "ipxe-qemu"},
    "uefi": {UEFI_ROM: "ipxe-qemu", FIRMWARE: "ovmf", VARIABLES: "ovmf"},
    "uboot": {UBOOT: "u-boot-qemu"},
}
PROMPT = "=> "
BY_TFTP, BY_HTTP = 100_000, 1_000_000  # bytes of the files
FETCH = "dhcp && chain tftp://10.0.0.2/boot.ipxe"
END = "echo > end\nsleep 1\nreboot"  # the serial port needs some time
LOAD_AT, SUM_AT = 0x1000000, 0x2000000  # addresses in U-Boot
WIRE_END = os.path.join(os.path.dirname(os.path.abspath(__file__)), "wire_end")


def check_files(name: str, with_network: bool = True) -> None:
    """Raises needs.Missing unless what a guest needs is there."""
    programs = {**needs.QEMU, **({"dnsmasq": "dnsmasq-base"} if with_network else {})}
    packages = {package for path, package in FILES[name].items() if not os.path.exists(path)}
    wanted = sorted(packages | set(needs.missing_packages(programs)))
    if wanted:
        raise needs.Missing(f"packages are missing: apt-get install --no-install-recommends {' '.join(wanted)}")
    if with_network:
        needs.check_tap("a boot over the network")


def script(name: str, size: int, seed: int, then: str) -> str:
    """A script for iPXE. It has lines of at least `size` bytes together, each of which counts if a drawn word equals
    its copy. Then it compares the count, so it finds a wrong byte or a missing line. It ends with `then`.
    """
    draw, lines, used = random.Random(seed), [], 0
    while used < size:
        word = draw.randbytes(450).hex()
        lines.append(f"iseq {word} {word} && inc right ||\n")
        used += len(lines[-1])
    end = f"iseq ${{right}} {len(lines)} && echo > passed {name} || echo > failed {name}\n"
    return f"#!ipxe\nset right:int32 0\n{''.join(lines)}{end}{then}\n"


def write_scripts(folder: str) -> None:
    """Writes what iPXE fetches: by TFTP a script, which fetches a larger one by HTTP. The larger script ends the guest.
    """
    second = f"chain http://10.0.0.2/large.ipxe || echo > failed http\n{END}"
    first = script("tftp", BY_TFTP, 1, second).replace("#!ipxe\n", "#!ipxe\necho > passed dhcp\n", 1)
    for name, text in (("boot.ipxe", first), ("large.ipxe", script("http", BY_HTTP, 2, END))):
        with open(os.path.join(folder, name), "w") as file:
            file.write(text)


def ipxe(board: list[str], way: str, folder: str, log: str, command: str = FETCH) -> Machine:
    """The machine in which iPXE runs: as a kernel, as the function's option ROM, or as its UEFI driver."""
    if way == "kernel":
        return Machine(board, log, ["-kernel", LKRN, "-append", command], chipset="pc,graphics=off")
    rom = ROM if way == "rom" else UEFI_ROM
    board = [*board, "--rom", str(os.path.getsize(rom))]
    if way == "rom":
        machine = Machine(board, log, ["-boot", "n"], chipset="pc,graphics=off")
    else:
        variables = shutil.copy(VARIABLES, os.path.join(folder, "variables"))
        drives = [f"if=pflash,format=raw,readonly=on,file={FIRMWARE}", f"if=pflash,format=raw,file={variables}"]
        machine = Machine(board, log, [word for drive in drives for word in ("-drive", drive)], megabytes=256)
    machine.device += f",romfile={rom}"
    return machine


def run_ipxe(words: Namespace, board: list[str], tell: Callable[[str], None]) -> bool:
    """Boots iPXE in the given ways, or in all. Returns whether iPXE got an address and fetched all bytes each time."""
    passed = 0
    ways = words.stages or WAYS
    for way in ways:
        check_files(way)
        with tempfile.TemporaryDirectory() as folder:
            os.chmod(folder, 0o755)
            write_scripts(folder)
            machine = ipxe(board, way, folder, os.path.join(words.cache, "console"))
            results = list(machine.lines(server=f"{shlex.quote(WIRE_END)} {shlex.quote(folder)}"))
        passed += results == ["passed dhcp", "passed tftp", "passed http"]
        tell(f"iPXE, {way}: {', '.join(results) or 'nothing passed'}")
    return passed == len(ways)


def uboot(words: Namespace, board: list[str], typed: list[str]) -> Machine:
    """The machine in which U-Boot runs, with commands that are typed at its prompts. The first key ends its
    countdown.
    """
    stop, log = [("Hit any key to stop autoboot:  2 ", " ")], os.path.join(words.cache, "console")
    return Machine(board, log, ["-bios", words.rom or UBOOT],
                   typed=stop + [(PROMPT, f"{command}\n") for command in typed])


def run_uboot(words: Namespace, board: list[str], tell: Callable[[str], None]) -> bool:
    """Boots U-Boot. Returns whether DHCP, pings and a file by TFTP were right."""
    check_files("uboot")
    data = random.Random(3).randbytes(BY_HTTP)
    stored = int.from_bytes(zlib.crc32(data).to_bytes(4, "big"), "little")  # as U-Boot stores the checksum
    checksum = f"crc32 {LOAD_AT:#x} $filesize {SUM_AT:#x} && itest.l *{SUM_AT:#x} == {stored:#x}"
    tests = {"dhcp": "dhcp", "ping": "ping 10.0.0.2", "tftp": f"tftpboot {LOAD_AT:#x} 10.0.0.2:file && {checksum}"}
    commands = ["setenv autoload no", *(
        f"if {test}; then echo '> passed {name}'; else echo '> failed {name}'; fi" for name, test in tests.items()),
        "echo '> end'; reset"]
    with tempfile.TemporaryDirectory() as folder:
        os.chmod(folder, 0o755)
        with open(os.path.join(folder, "file"), "wb") as file:
            file.write(data)
        machine = uboot(words, board, commands)
        results = list(machine.lines(server=f"{shlex.quote(WIRE_END)} {shlex.quote(folder)}"))
    tell(f"U-Boot: {', '.join(results) or 'nothing passed'}")
    return results == ["passed dhcp", "passed ping", "passed tftp"]
