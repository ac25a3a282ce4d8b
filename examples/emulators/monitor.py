"""QEMU's machine protocol (QMP) over a socket, as far as QEMU's libqtest uses it."""

import json
import socket
import time

GREETING = {"QMP": {"version": {"qemu": {"major": 7, "minor": 2, "micro": 0}, "package": "nicbench"},
    "capabilities": []}}
# What queries return
RETURNS = {
    "qmp_capabilities": {}, "quit": {}, "system_reset": {}, "query-version": GREETING["QMP"]["version"],
    "query-name": {},
    "query-status": {"status": "running", "running": True, "singlestep": False},
    "query-machines": [{"name": "pc", "is-default": True, "cpu-max": 1, "hotpluggable-cpus": False,
    "numa-mem-supported": False, "deprecated": False}],
    "qom-list-types": [{"name": "e1000", "parent": "pci-device"}]}
RETURNS["query-commands"] = [{"name": name} for name in RETURNS]


class Monitor:
    """The connection to a client that sends commands, and the text of a command that isn't complete yet."""

    def __init__(self, path):
        self.socket = socket.socket(socket.AF_UNIX, socket.SOCK_STREAM)
        self.socket.connect(path)
        self.text = ""
        self.send(GREETING)

    def fileno(self):
        return self.socket.fileno()

    def send(self, message):
        self.socket.sendall((json.dumps(message) + "\r\n").encode())

    def commands(self):
        """The commands that have come, or None if the client has closed its end."""
        data = self.socket.recv(65536)
        if not data:
            return None
        self.text += data.decode("utf-8", "replace")
        found, decoder = [], json.JSONDecoder()
        while self.text.strip():
            try:
                command, end = decoder.raw_decode(self.text.lstrip())
            except json.JSONDecodeError:
                break
            self.text = self.text.lstrip()[end:]
            found.append(command)
        return found

    def answer(self, command):
        """Answers a command. Returns its name, or None if it is unknown."""
        name = command.get("execute") if isinstance(command, dict) else None
        mark = {"id": command["id"]} if isinstance(command, dict) and "id" in command else {}
        if name not in RETURNS:
            self.send({"error": {"class": "CommandNotFound", "desc": f"The command {name} has not been found"}, **mark})
            return None
        self.send({"return": RETURNS[name], **mark})
        return name

    def tell(self, event, **data):
        """Reports an event."""
        now = time.time()
        self.send({"event": event, "data": data, "timestamp": {"seconds": int(now),
            "microseconds": int(now % 1 * 1_000_000)}})
