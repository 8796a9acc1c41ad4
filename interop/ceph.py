"""Ceph's S3 gateway: one monitor, one store that keeps its objects in memory, and the gateway."""

import glob
import os
import sys
import urllib.request
import uuid

from cluster import Cluster
from service import KEYS, OTHER_KEYS, free_ports

CONF = """
[global]
fsid = {fsid}
mon host = v2:127.0.0.1:{mon_port}
public addr = 127.0.0.1
cluster addr = 127.0.0.1
ms bind msgr1 = false
auth cluster required = none
auth service required = none
auth client required = none
ms mon client mode = crc
run dir = {folder}/run
crash dir = {folder}/crash
admin socket =
log file =
log to stderr = true
err to stderr = true
mon cluster log file =
heartbeat file =
osd pool default size = 1
osd pool default min size = 1
osd pool default pg num = 1
osd pool default pgp num = 1
osd pool default pg autoscale mode = off
osd crush chooseleaf type = 0

[mon]
mon data = {folder}/mon
mon allow pool size one = true
mon data avail warn = 2
mon data avail crit = 1
mon max pg per osd = 1000
paxos propose interval = 0.05

[osd]
osd data = {folder}/osd
osd journal =
osd objectstore = memstore
memstore device bytes = 4294967296
osd max pg per osd hard ratio = 10
osd class dir = {classes}
osd class load list = *
osd class default list = *

[client]
rgw rados pool pg num min = 1

[client.rgw.a]
rgw data = {folder}/rgw
rgw frontends = beast endpoint=127.0.0.1:{port}
rgw thread pool size = 16
rgw enable ops log = false
rgw enable usage log = false
rgw run sync thread = false
"""


class Ceph(Cluster):
    name = "ceph"
    title = "Ceph"
    packages = ("ceph-mon", "ceph-osd", "ceph-common", "radosgw", "faketime")
    keys = KEYS
    other_keys = OTHER_KEYS

    def start(self):
        for name in ("run", "crash", "mon", "osd", "rgw"):
            os.mkdir(self.path(name))
        mon_port, port = free_ports(2)
        self.url = f"http://127.0.0.1:{port}"
        self.conf = self.path("ceph.conf")
        self.fsid = str(uuid.uuid4())
        values = {"fsid": self.fsid, "mon_port": mon_port, "port": port, "folder": self.folder, "classes": classes()}
        self.write(CONF.format(**values), "ceph.conf")
        self.start_monitor(mon_port)
        self.start_store()
        self.start_gateway()

    def start_monitor(self, port):
        address, monmap = f"[v2:127.0.0.1:{port}]", self.path("monmap")
        self.step("monmaptool", "--create", "--fsid", self.fsid, "--addv", "a", address, monmap)
        self.step("ceph-mon", "-c", self.conf, "-i", "a", "--mkfs", "--monmap", monmap)
        self.spawn("mon", "ceph-mon", "-c", self.conf, "-i", "a", "-f")
        self.wait_for("the monitor", lambda: self.tells("mon", "stat") != "")

    def start_store(self):
        store = str(uuid.uuid4())
        self.step("ceph", "-c", self.conf, "osd", "new", store)
        words = ["ceph-osd", "-c", self.conf, "--no-mon-config", "-i", "0"]
        self.step(*words, "--mkfs", "--osd-uuid", store)
        self.spawn("osd", *words, "-f")
        self.wait_for("the store", lambda: '"num_up_osds":1,' in self.tells("osd", "stat", "--format", "json"))

    def start_gateway(self):
        for name, keys in (("tester", self.keys), ("other", self.other_keys)):
            user = ["user", "create", f"--uid={name}", f"--display-name={name}"]
            pair = ["--access-key=" + keys["AWS_ACCESS_KEY_ID"], "--secret-key=" + keys["AWS_SECRET_ACCESS_KEY"]]
            self.step("radosgw-admin", "-c", self.conf, "--no-mon-config", *user, *pair)
        self.spawn("rgw", "radosgw", "-c", self.conf, "--no-mon-config", "-n", "client.rgw.a", "-f")
        self.wait_for("the gateway", lambda: answers(self.url))

    def tells(self, *words):
        """What the monitor says; nothing where it is not there yet."""
        done = self.attempt("ceph", "-c", self.conf, "--connect-timeout", "5", *words)
        return done.stdout if done.returncode == 0 else ""


def classes():
    """The folder of the classes that the gateway wants of the store."""
    for path in glob.glob("/usr/lib/*/rados-classes/libcls_rgw.so"):
        return os.path.dirname(path)
    sys.exit("libcls_rgw.so is in none of the packages")


def answers(url):
    try:
        with urllib.request.urlopen(url, timeout=10) as answer:
            return answer.status == 200
    except OSError:
        return False
