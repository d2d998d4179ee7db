#!/usr/bin/env python3
"""Starts a RabbitMQ of one's own on the loopback address, in a folder of its own, and ends it again.

    adapters/rabbitmq.py [PORT]        runs until its input ends, and prints the port
"""
import os
import shutil
import socket
import subprocess
import sys
import tempfile
import time

SERVER = "/usr/lib/rabbitmq/bin/rabbitmq-server"


def is_installed():
    return os.path.exists(SERVER) and shutil.which("epmd") is not None


def free_port():
    with socket.socket() as probe:
        probe.bind(("127.0.0.1", 0))
        return probe.getsockname()[1]


class RabbitMQ:
    """A broker that listens on `port` while the `with` block runs."""

    def __init__(self, port=None, patience=120):
        self.port, self.patience = port or free_port(), patience
        self.folder = tempfile.mkdtemp(prefix="lapin-rabbitmq-")
        names, self._children = free_port(), []
        with open(f"{self.folder}/rabbitmq.conf", "w", encoding="utf-8") as file:
            file.write(f"listeners.tcp.1 = 127.0.0.1:{self.port}\nlog.console = false\nlog.file.level = warning\n")
        self._env = {
            **os.environ, "HOME": self.folder, "RABBITMQ_NODENAME": f"lapin{self.port}@localhost", "RABBITMQ_MNESIA_BASE": f"{self.folder}/data",
            "RABBITMQ_LOG_BASE": f"{self.folder}/log", "RABBITMQ_CONFIG_FILE": f"{self.folder}/rabbitmq.conf", "RABBITMQ_DIST_PORT": str(free_port()),
            "RABBITMQ_PID_FILE": f"{self.folder}/pid", "RABBITMQ_ENABLED_PLUGINS_FILE": f"{self.folder}/plugins", "RABBITMQ_FEATURE_FLAGS_FILE": f"{self.folder}/flags",
            "ERL_EPMD_PORT": str(names), "ERL_EPMD_ADDRESS": "127.0.0.1", "RABBITMQ_CONF_ENV_FILE": f"{self.folder}/none", "LANG": "C.UTF-8",
            "RABBITMQ_SERVER_ADDITIONAL_ERL_ARGS": "-kernel inet_dist_use_interface {127,0,0,1}",
        }
        self._start(["epmd", "-port", str(names), "-address", "127.0.0.1"])
        self._start([SERVER])

    def _start(self, words):
        log = open(f"{self.folder}/{os.path.basename(words[0])}.log", "wb")
        self._children.append(subprocess.Popen(words, env=self._env, cwd=self.folder, stdin=subprocess.DEVNULL, stdout=log, stderr=log,
                                               start_new_session=True))

    def wait(self):
        """Waits until it answers; False where it doesn't in time."""
        until = time.monotonic() + self.patience
        while time.monotonic() < until and self._children[1].poll() is None:
            try:
                with socket.create_connection(("127.0.0.1", self.port), 1) as probe:
                    probe.settimeout(5)
                    probe.sendall(b"AMQP\x00\x00\x09\x01")
                    if probe.recv(1):
                        return True
            except OSError:
                pass
            time.sleep(0.3)
        return False

    def stop(self):
        """Ends its own processes, by their ids, and removes the folder."""
        for child in reversed(self._children):
            if child.poll() is None:
                try:
                    os.killpg(child.pid, 15)
                    child.wait(20)
                except (OSError, subprocess.TimeoutExpired):
                    try:
                        os.killpg(child.pid, 9)
                    except OSError:
                        pass
                    child.wait()
        shutil.rmtree(self.folder, ignore_errors=True)

    def __enter__(self):
        if not self.wait():
            self.stop()
            raise RuntimeError("RabbitMQ didn't start")
        return self

    def __exit__(self, *_):
        self.stop()


if __name__ == "__main__":
    with RabbitMQ(int(sys.argv[1]) if len(sys.argv) > 1 else None) as broker:
        print(broker.port, flush=True)
        sys.stdin.read()
