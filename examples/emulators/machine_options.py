"""Reads QEMU's command line: the options for a machine that has one adapter, and no processor."""

import os

# The size of memory and the adapter's address if the command line states no others, as in QEMU
MEMORY, ADDRESS = "128M", "52:54:00:12:34:56"
UNITS = {"": 20, "B": 0, "K": 10, "M": 20, "G": 30, "T": 40}
# The adapter is the model of `nicbench serve`, at the place where QEMU's libqos puts a device.
MODELS, DEVICE = ("e1000", "e1000-82540em"), 4
MACHINES = ("pc", "none")
# Options that need a processor, a disk or a guest
NEEDS = {
    "bios": "firmware", "kernel": "a guest", "initrd": "a guest", "drive": "a disk", "blockdev": "a disk",
    "hda": "a disk", "hdb": "a disk",
    "hdc": "a disk", "hdd": "a disk", "cdrom": "a disk", "fda": "a disk", "fdb": "a disk", "incoming": "migration",
    "loadvm": "snapshots",
    "daemonize": "a process in the background", "readconfig": "a file of options"}


class Unusable(Exception):
    """Why the machine can't start: an option that can't be met, no -qtest, or no program."""


def pairs_of(words):
    """The options of a command line with their values. A word that doesn't begin with - is the value of the option
    before it.
    """
    pairs = []
    for word in words:
        if word.startswith("-") and len(word) > 1:
            pairs.append([word.lstrip("-"), None])
        elif pairs and pairs[-1][1] is None:
            pairs[-1][1] = word
        else:
            raise Unusable(f"{word}: there is no disk")
    return pairs


def properties_of(value, first):
    """The properties in a value such as `socket,id=net,fd=3`. The first property may lack its name, which is `first`.
    """
    parts = (value or "").split(",")
    found = dict(part.partition("=")[::2] for part in parts[1:])
    name, joins, rest = parts[0].partition("=")
    return {**found, **({name: rest} if joins else {first: name})}


def bytes_of(text):
    """The number of bytes that a size such as 128M means."""
    number, unit = (text[:-1], text[-1].upper()) if text[-1:].upper() in UNITS and text[-1:] else (text, "")
    if not number.isdecimal():
        raise Unusable(f"-m {text}: this isn't a size")
    return int(number) << UNITS[unit]


class MachineOptions:
    """What the words of a command line state: where the client listens, and what the machine has."""

    def __init__(self, words):
        self.client = self.log = self.monitor = self.wire = None
        self.memory, self.address = bytes_of(MEMORY), ADDRESS
        self.netdevs, self.sockets, self.adapters = {}, {}, []
        for name, value in pairs_of(words):
            self.read(name, value)
        if self.client is None:
            raise Unusable("-qtest unix:PATH is missing: the client must listen there")
        self.set_adapter()

    def read(self, name, value):
        """Reads an option. Raises Unusable if the machine can't meet it. Options in neither table are ignored."""
        if name in NEEDS:
            raise Unusable(f"-{name}: there is an adapter alone, without {NEEDS[name]}")
        readers = {
            "qtest": self.read_client, "qtest-log": self.read_log, "chardev": self.read_socket,
            "mon": self.read_monitor, "m": self.read_memory,
            "machine": self.read_machine, "M": self.read_machine, "accel": self.read_accelerator,
            "device": self.read_device,
            "netdev": self.read_netdev, "nic": self.read_network, "net": self.read_network}
        if name in readers:
            readers[name](value or "")

    def read_client(self, value):
        kind, _, path = value.partition(":")
        if kind != "unix":
            raise Unusable(f"-qtest {value}: only unix:PATH")
        self.client = path.split(",")[0]

    def read_log(self, value):
        self.log = value

    def read_socket(self, value):
        found = properties_of(value, "backend")
        self.sockets[found.get("id")] = found

    def read_monitor(self, value):
        found = properties_of(value, "chardev")
        socket = self.sockets.get(found.get("chardev"), {})
        if socket.get("backend") != "socket" or "path" not in socket or found.get("mode") != "control":
            raise Unusable(f"-mon {value}: only mode=control over -chardev socket,path=PATH")
        self.monitor = socket["path"]

    def read_memory(self, value):
        self.memory = bytes_of(properties_of(value, "size").get("size", MEMORY))

    def read_machine(self, value):
        name = properties_of(value, "type").get("type", "pc")
        if name not in MACHINES and not name.startswith("pc-i440fx"):
            raise Unusable(f"-machine {value}: only pc, whose interrupt controllers are those here")

    def read_accelerator(self, value):
        if properties_of(value, "accel")["accel"] != "qtest":
            raise Unusable(f"-accel {value}: there is no processor; only qtest")

    def read_device(self, value):
        found = properties_of(value, "driver")
        if found["driver"] not in MODELS:
            raise Unusable(f"-device {value}: only e1000")
        self.adapters.append(found)

    def read_netdev(self, value):
        found = properties_of(value, "type")
        if found["type"] not in ("socket", "hubport") or (found["type"] == "socket" and not found.get("fd",
            "").isdecimal()):
            raise Unusable(f"-netdev {value}: only socket,id=NAME,fd=N, or hubport, to which nothing is connected")
        self.netdevs[found.get("id")] = found.get("fd")

    def read_network(self, value):
        if value != "none":
            raise Unusable(f"-nic {value}: use -netdev and -device")

    def set_adapter(self):
        """Sets the adapter's address, and the file descriptor of its wire if its -netdev has one."""
        if len(self.adapters) > 1:
            raise Unusable("-device e1000: there is one adapter")
        for found in self.adapters:
            place = found.get("addr", str(DEVICE)).split(".")[0]
            if int(place, 16) != DEVICE:
                raise Unusable(f"-device e1000,addr={found['addr']}: only addr=4")
            self.address = found.get("mac", ADDRESS)
            if "netdev" in found and found["netdev"] not in self.netdevs:
                raise Unusable(f"-device e1000,netdev={found['netdev']}: there is no such -netdev before it")
            descriptor = self.netdevs.get(found.get("netdev"))
            self.wire = int(descriptor) if descriptor else None


def program_of():
    """The path of `nicbench`: that in the variable NICBENCH, or the program that `./nicbench` has built. Raises
    Unusable if there is no such program.
    """
    top = os.path.dirname(os.path.dirname(os.path.dirname(os.path.abspath(__file__))))
    path = os.environ.get("NICBENCH") or os.path.join(top, ".build", "nicbench")
    if not os.access(path, os.X_OK):
        raise Unusable(f"there is no program {path}: set NICBENCH, or run ./nicbench once")
    return path
