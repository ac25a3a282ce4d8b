"""A sweep without a program in the guest: rounds of echo requests, which the board sends and judges."""

from __future__ import annotations

import os
import tempfile
from typing import TYPE_CHECKING

import boot_loaders
import dpdk
import programs
from machine import Ended
from sweep_report import Report

if TYPE_CHECKING:
    from argparse import Namespace
    from machine import Machine

MOST = {"ipxe": 6, "uboot": 6, "dpdk": 40}
IPXE = "ifopen net0 && set net0/ip 10.0.0.1 && set net0/netmask 255.255.255.0 && sleep 1000000"
# U-Boot answers pings while it waits for a reply to its own ping. Nobody sends that reply.
UBOOT = ["setenv ipaddr 10.0.0.1; setenv netmask 255.255.255.0", "while true; do ping 10.0.0.9; done"]


def machine_of(words: Namespace, board: list[str], folder: str) -> Machine:
    """The guest, whose host has the address 10.0.0.1 and answers pings."""
    if words.guest == "dpdk":
        return dpdk.machine_of(words, board, 0)
    boot_loaders.check_files("uboot" if words.guest == "uboot" else "kernel", with_network=False)
    if words.guest == "uboot":
        return boot_loaders.uboot(words, board, UBOOT)
    machine = boot_loaders.ipxe(board, "kernel", folder, os.path.join(words.cache, "console"), IPXE)
    machine.clock = "host"  # with `vm`, iPXE hangs while it collects entropy
    return machine


def run(words: Namespace, board: list[str]) -> bool:
    """Plays rounds. Returns whether all passed."""
    report, error = Report(words), None
    last = words.first + words.sweep - 1
    board = [*board, "--echo", f"{words.first},{last},{words.most or MOST[words.guest]},{words.stop}"]
    with tempfile.TemporaryDirectory() as folder:
        machine = machine_of(words, board, folder)
        try:
            for line in machine.lines(plugin=f"{programs.plugin(words.cache)},physical=1"):
                report.line(line)
        except Ended as ended:
            error = str(ended)
    return report.end(error, with_reached=False)
