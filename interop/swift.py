"""OpenStack Swift with its S3 API: the four servers and memcached, one device, one replica."""

import getpass
import os
import sys
import urllib.request

from cluster import Cluster
from service import free_ports

PYTHON = "/usr/bin/python3"  # the one that the packages are for
KINDS = ("account", "container", "object")

# The packaged starters read /etc/swift; this one reads the folder that it is given.
SERVE = """
import sys
from swift.common import utils, wsgi
utils.set_swift_dir(sys.argv[1])
sys.exit(wsgi.run_wsgi(f"{sys.argv[1]}/{sys.argv[2]}.conf", sys.argv[2], verbose=True))
"""

RINGS = """
import sys
from swift.common.ring import RingBuilder
for kind, port in zip(sys.argv[2::2], sys.argv[3::2]):
    builder = RingBuilder(4, 1, 0)
    place = {"ip": "127.0.0.1", "port": int(port), "device": "one"}
    builder.add_dev({"id": 0, "region": 1, "zone": 1, "weight": 1.0, **place})
    builder.rebalance()
    builder.get_ring().save(f"{sys.argv[1]}/{kind}.ring.gz")
"""

SWIFT_CONF = """
[swift-hash]
swift_hash_path_suffix = interop

[storage-policy:0]
name = one
default = yes
"""

# On a busy machine a server is slow to accept and to answer: the times are long, and no server is left out.
COMMON = """
[DEFAULT]
bind_ip = 127.0.0.1
bind_port = {port}
user = {user}
workers = 0
swift_dir = {etc}
conn_timeout = 30
node_timeout = 60
"""

SERVER_CONF = COMMON + """
devices = {devices}
mount_check = false
disable_fallocate = true
fallocate_reserve = 0
container_update_timeout = 60

[pipeline:main]
pipeline = healthcheck {kind}-server

[app:{kind}-server]
use = egg:swift#{kind}
recon_cache_path = {recon}

[filter:healthcheck]
use = egg:swift#healthcheck
"""

FILTERS = "catch_errors gatekeeper healthcheck cache listing_formats bulk s3api tempauth copy slo"

SETTINGS = {
    "cache": "memcache_servers = 127.0.0.1:{cache}",
    "s3api": "location = us-east-1\nmax_upload_part_num = 10000",
    "tempauth": "user_test_tester = testing .admin\nuser_test_reader = reading",
    "slo": "max_manifest_segments = 10000",
}

PROXY_CONF = COMMON + """
[pipeline:main]
pipeline = {filters} proxy-server

[app:proxy-server]
use = egg:swift#proxy
account_autocreate = true
error_suppression_limit = 1000000
"""


class Swift(Cluster):
    name = "swift"
    title = "OpenStack Swift"
    packages = ("swift-proxy", "swift-account", "swift-container", "swift-object", "python3-swift", "memcached", "faketime")
    keys = {"AWS_ACCESS_KEY_ID": "test:tester", "AWS_SECRET_ACCESS_KEY": "testing", "AWS_REGION": "us-east-1"}
    other_keys = {"AWS_ACCESS_KEY_ID": "test:reader", "AWS_SECRET_ACCESS_KEY": "reading", "AWS_REGION": "us-east-1"}

    def start(self):
        self.need_attributes()
        etc = self.path("etc")
        os.makedirs(self.path("srv", "one"))
        os.mkdir(self.path("recon"))
        os.mkdir(etc)
        *ports, proxy, cache = free_ports(len(KINDS) + 2)
        self.configure(etc, ports, proxy, cache)
        self.step(PYTHON, "-c", RINGS, etc, *[word for kind, port in zip(KINDS, ports) for word in (kind, str(port))])
        self.spawn("memcached", "memcached", "-u", getpass.getuser(), "-l", "127.0.0.1", "-p", str(cache), "-U", "0")
        for kind in (*KINDS, "proxy"):
            self.spawn(kind, PYTHON, "-c", SERVE, etc, kind + "-server")
        for kind, port in zip((*KINDS, "proxy"), (*ports, proxy)):
            self.wait_for(f"the {kind} server", lambda: is_healthy(port))
        self.url = f"http://127.0.0.1:{proxy}"

    def configure(self, etc, ports, proxy, cache):
        self.write(SWIFT_CONF, "etc", "swift.conf")
        common = {"user": getpass.getuser(), "etc": etc}
        places = {"devices": self.path("srv"), "recon": self.path("recon")}
        for kind, port in zip(KINDS, ports):
            self.write(SERVER_CONF.format(kind=kind, port=port, **common, **places), "etc", kind + "-server.conf")
        sections = [PROXY_CONF.format(port=proxy, filters=FILTERS, **common)]
        for name in FILTERS.split():
            package = "memcache" if name == "cache" else name
            settings = SETTINGS.get(name, "").format(cache=cache)
            sections.append(f"[filter:{name}]\nuse = egg:swift#{package}\n{settings}\n")
        self.write("\n".join(sections), "etc", "proxy-server.conf")

    def need_attributes(self):
        """Swift keeps what it knows of an object in extended attributes."""
        self.write("", "probe")
        try:
            os.setxattr(self.path("probe"), "user.swift.metadata", b"x" * 3_000)
        except OSError:
            sys.exit(f"{self.folder} has no extended attributes: set TMPDIR to a folder on ext4, xfs or btrfs")


def is_healthy(port):
    try:
        with urllib.request.urlopen(f"http://127.0.0.1:{port}/healthcheck", timeout=10) as answer:
            return answer.status == 200
    except OSError:
        return False
