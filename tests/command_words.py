"""Tests words of the command line: versions, helps, and words that are refused."""

import os
import subprocess

from clap_texts import DIGITS, FOR_MORE, KILOBYTES, reason, refused
from helps import DRIVE_HELP, HELP, PASS_HELP, RUN_HELP, SERVE_HELP, SHOW_HELP
import sources

PASS_USAGE = b"\nUsage: nicbench pass [OPTIONS] <IN> <OUT>\n" + FOR_MORE
RUN_USAGE = b"\nUsage: nicbench run [OPTIONS] <SCENARIO> <OUTDIR>\n" + FOR_MORE
RUN_FILES_USAGE = b"\nUsage: nicbench run <SCENARIO> <OUTDIR>\n" + FOR_MORE
SHOW_USAGE = b"\nUsage: nicbench show <TRACE>\n" + FOR_MORE
NO_TRACE = b"error: the following required arguments were not provided:\n  <TRACE>\n" + SHOW_USAGE
SERVE_USAGE = b"\nUsage: nicbench serve [OPTIONS]\n" + FOR_MORE
ADDRESS_FORM = b"an address is six pairs of hexadecimal digits joined by colons, such as 02:00:00:00:00:01"
GROUP_FORM = b"a group is an address whose first byte is odd, such as 01:00:5e:00:00:01"
NOT_UNICODE = b"error: invalid UTF-8 was detected in one or more arguments\n\nUsage: nicbench <COMMAND>\n" + FOR_MORE


def help_command(bench):
    """The command `help` writes the same help to standard output, and ends with status 0, or 3 if it can't be written.
    """
    helps = {"pass": PASS_HELP, "show": SHOW_HELP, "run": RUN_HELP, "serve": SERVE_HELP, "drive": DRIVE_HELP}
    for line, text in ([], HELP), *(([command], text) for command, text in helps.items()):
        bench.ends(f"words {['help', *line]}", ["help", *line], 0, text)
    with open("/dev/full", "wb") as full:
        ran = subprocess.run([bench.program, "help"], stdout=full, stderr=subprocess.PIPE)
    bench.check("help to a full device", (ran.returncode, ran.stderr), (3, b"nicbench: E67 Write\n"))


def words(bench):
    """A call with an option for help or the version, or with invalid arguments, ends with status 2. The expected text
    is on standard error. No file is created.
    """
    texts = [
        ([], HELP),
        (["--help"], HELP),
        (["-h"], HELP),
        *((line, f"nicbench {sources.version()}\n".encode())
          for line in [["--version"], ["-V"], ["--version", "pass"]]),
        (["pass", "--version"],
         b"error: unexpected argument '--version' found\n\n  tip: to pass '--version' as a value, use '-- --version'\n"
         + PASS_USAGE),
        (["pass", "--help"], PASS_HELP),
        (["pass", "-h"], PASS_HELP),
        (["pass", "a", "--help"], PASS_HELP),
        (["run", "-h"], RUN_HELP),
        (["--fly"], b"error: unexpected argument '--fly' found\n\nUsage: nicbench <COMMAND>\n" + FOR_MORE),
        *((["help", option], f"error: unrecognized subcommand '{option}'\n\nUsage: nicbench <COMMAND>\n".encode()
           + FOR_MORE) for option in ("--help", "--version")),
        (["help", "fly"], b"error: unrecognized subcommand 'fly'\n\nUsage: nicbench <COMMAND>\n" + FOR_MORE),
        (["pass", "a", "b", "--vlan"], b"error: a value is required for '--vlan <N>' but none was supplied\n"
         + FOR_MORE),
        (["pass", "--group=01:00:5e:00:00:01", "--group=xx", "a", "b"],
         b"error: the argument '--group <G>' cannot be used multiple times\n" + PASS_USAGE),
        (["pass", "a", "b", "--address", "xx", "--address", "xx"],
         b"error: the argument '--address <A>' cannot be used multiple times\n" + PASS_USAGE),
        (["serve", "--seed", "-7"], b"error: unexpected argument '-7' found\n" + SERVE_USAGE),
        (["pass"],
         b"error: the following required arguments were not provided:\n  <IN>\n  <OUT>\n\n"
         b"Usage: nicbench pass <IN> <OUT>\n" + FOR_MORE),
        (["pass", "a"],
         b"error: the following required arguments were not provided:\n  <OUT>\n\nUsage: nicbench pass <IN> <OUT>\n"
         + FOR_MORE),
        (["pass", "a", "b", "c"], b"error: unexpected argument 'c' found\n" + PASS_USAGE),
        (["fly", "a"], b"error: unrecognized subcommand 'fly'\n\nUsage: nicbench <COMMAND>\n" + FOR_MORE),
        (["show", "--help"], SHOW_HELP),
        (["run", "--help"], RUN_HELP),
        (["run"], b"error: the following required arguments were not provided:\n  <SCENARIO>\n  <OUTDIR>\n"
         + RUN_FILES_USAGE),
        (["run", "a"], b"error: the following required arguments were not provided:\n  <OUTDIR>\n" + RUN_FILES_USAGE),
        (["run", "--wires", "a"],
         b"error: the following required arguments were not provided:\n  <OUTDIR>\n\n"
         b"Usage: nicbench run --wires <SCENARIO> <OUTDIR>\n" + FOR_MORE),
        (["run", "--wires", "a", "b", "--wires"],
         b"error: the argument '--wires' cannot be used multiple times\n" + RUN_USAGE),
        (["run", "--wires=yes", "a", "b"],
         b"error: unexpected value 'yes' for '--wires' found; no more were expected\n\n"
         b"Usage: nicbench run --wires <SCENARIO> <OUTDIR>\n" + FOR_MORE),
        (["run", "--nanos", "a", "b", "--nanos"],
         b"error: the argument '--nanos' cannot be used multiple times\n" + RUN_USAGE),
        (["pass", "--nanos", "--nanos", "a", "b"],
         b"error: the argument '--nanos' cannot be used multiple times\n" + PASS_USAGE),
        (["pass", "--nanos=9", "a", "b"],
         b"error: unexpected value '9' for '--nanos' found; no more were expected\n\n"
         b"Usage: nicbench pass --nanos <IN> <OUT>\n" + FOR_MORE),
        (["run", "a", "b", "c"], b"error: unexpected argument 'c' found\n" + RUN_USAGE),
        (["show", "--"], NO_TRACE),
        (["show", "a", "b"], b"error: unexpected argument 'b' found\n" + SHOW_USAGE),
        (["show", "a", "--vlan", "5"],
         b"error: unexpected argument '--vlan' found\n\n  tip: to pass '--vlan' as a value, use '-- --vlan'\n"
         + SHOW_USAGE),
        (["serve", "--help"], SERVE_HELP),
        *((["drive", option, value, "--send", "a", "--receive", "b"],
           refused(value, f"{option} <N>", reason(value, 0, most, DIGITS)))
          for option, most in [("--rx", 65535), ("--tx", 65535), ("--buffers", 65535), ("--expect", 2**64 - 1),
                               ("--idle", 2**64 - 1)]
          for value in ["", str(most + 1), "+8", "+", "0x8", "8 "]),
        (["drive", "--help"], DRIVE_HELP),
        (["serve", "a"], b"error: unexpected argument 'a' found\n" + SERVE_USAGE),
        (["serve", "--vlan", "5"], b"error: unexpected argument '--vlan' found\n" + SERVE_USAGE),
        (["serve", "--rxa", "3"], refused("3", "--rxa <N>", KILOBYTES)),
        (["pass", "--address", "a", "b"],
         b"error: the following required arguments were not provided:\n  <OUT>\n\n"
         b"Usage: nicbench pass --address <A> <IN> <OUT>\n" + FOR_MORE),
        (["pass", "--vlan", "a", "b"], refused("a", "--vlan <N>", b"invalid digit found in string")),
        (["pass", "--foo", "a", "b"],
         b"error: unexpected argument '--foo' found\n\n  tip: to pass '--foo' as a value, use '-- --foo'\n"
         + PASS_USAGE),
    ]
    for option, name in [("--address", b"--address <A>"), ("--group", b"--group <G>"), ("--vlan", b"--vlan <N>")]:
        value = {"--address": "02:00:00:00:00:01", "--group": "01:00:5e:00:00:01", "--vlan": "5"}[option]
        texts.append((["pass", option, value, option, value, "a", "b"],
                      b"error: the argument '" + name + b"' cannot be used multiple times\n" + PASS_USAGE))
    values = {
        "--address": (ADDRESS_FORM, ["", "02:00:00:00:00", "02:00:00:00:00:01:02", "02:00:00:00:00:0g", "2:0:0:0:0:1",
                                     "02-00-00-00-00-01", "020000000001",
                                     "02:00:00:00:00:1", "02:00:00:00:00:011", "0200:00:00:00:001", "02:00:00:00:00:+1",
                                     "02:00:00:00:00:é"]),
        "--group": (GROUP_FORM, ["", "02:00:00:00:00:01", "01:00:5e:00:00", "01:00:5e:00:00:0x"]),
    }
    for option, (form, texts_of) in values.items():
        for value in texts_of:
            name = {"--address": "--address <A>", "--group": "--group <G>"}[option]
            texts.append((["pass", option, value, "a", "b"], refused(value, name, form)))
    for value in ["", "4096", "70000", "99999999999999999999", "+8", "+4096", "0x5", "5 ", "five", "-1"]:
        why = reason(value, 0, 4095, DIGITS)
        texts.append((["pass", f"--vlan={value}", "a", "b"], refused(value, "--vlan <N>", why)))
    # Of several invalid values, the first that clap refuses is reported, or else the first in the order of the help.
    bad_vlan = refused("4096", "--vlan <N>", b"4096 is not in 0..=4095")
    texts.append((["pass", "--group", "y", "--vlan", "4096", "--address", "x", "a", "b"], bad_vlan))
    texts.append((["pass", "--vlan", "+5", "--group", "y", "--address", "x", "a", "b"],
                  refused("x", "--address <A>", ADDRESS_FORM)))
    texts.append((["pass", "--vlan", "+5", "--group", "y", "a", "b"], refused("y", "--group <G>", GROUP_FORM)))
    for line in [[b"\xff"], ["pass", b"a\xff.pcap", "b"], ["pass", "a", "b", b"--vlan=\xc3"], [b"\xff", "--help"]]:
        texts.append((line, NOT_UNICODE))
    help_command(bench)
    before = set(os.listdir(bench.folder)) - {"a", "b", "c"}
    for line, text in texts:
        bench.ends(f"words {line}", line, 2, b"", text)
    bench.check("words: no file is made", set(os.listdir(bench.folder)), before)
