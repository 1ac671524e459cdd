#!/usr/bin/env python3
"""A Linux kernel mounts the tree of three running servers, in a small virtual machine.

    python3 bench/kernel.py FOLDER PROGRAM [WORD..]

starts three servers and a door, as bench/door.py does, and boots the kernel of FOLDER in an
emulator. There it mounts the door's tree (docs/SERVING.md) and works on it: what it reads must be
what it wrote, behind an emptied cache, and two users may do with files what owners, modes and
groups let them. Meanwhile server 0, which leads, is killed, and started again 3 s later, and then
the door. The exit status is 0 where all was right. The emulator is qemu-system-x86_64 of Debian's
qemu-system-x86, or what QEMU names. FOLDER is what was unpacked of two more packages; any kernel
does that has NFS_V2 as a module (apt-cache search linux-image):

    apt-get download busybox-static linux-image-6.1.0-57-amd64
    for it in *.deb; do dpkg -x $it FOLDER; done
"""

import os
import subprocess
import sys
import tempfile
import threading
import time
from pathlib import Path

from door import Served

MODULES = """virtio virtio_ring virtio_pci_legacy_dev virtio_pci_modern_dev virtio_pci failover
    net_failover virtio_net netfs fscache sunrpc grace lockd nfs nfsv2"""

INIT = r"""#!/bin/busybox sh
/bin/busybox --install /bin
mount -t proc no /proc; mount -t devtmpfs no /dev; mount -t tmpfs no /tmp
for it in $(cat /modules) $(cat /modules); do insmod /lib/$it 2> /dev/null; done
ifconfig eth0 10.0.2.15
sh /work $(sed 's/.*door=//' /proc/cmdline) 2>&1
poweroff -f
"""

WORK = r"""
drop() { sync; echo 3 > /proc/sys/vm/drop_caches; }
right() { "$@" && echo "right: $*" || echo "WRONG: $*"; }
trip() { mkdir trip; tar xf /tmp/tar -C trip; drop; right diff -r /tmp/set trip; rm -r trip; }
options=vers=2,proto=tcp,port=$1,mountproto=tcp,mountport=$1,nolock,addr=10.0.2.2
right mount -i -t nfs -o $options 10.0.2.2:/ /mnt
cd /mnt; mkdir /tmp/set own
for n in 0 1 4095 8192 8193 65536 300001; do head -c $n /dev/urandom > /tmp/set/$n; done
cp /tmp/set/* own; drop; right diff -r /tmp/set own
for it in /tmp/set/8193 own/8193; do
    truncate -s 5000 $it; truncate -s 20000 $it; echo more >> $it
    dd if=/tmp/set/65536 of=$it bs=777 seek=9 count=3 conv=notrunc 2> /dev/null
done
mv own/1 moved; ln moved linked; ln -s linked sign; chmod 640 moved
touch -d "2001-02-03 04:05:06" moved; drop; right cmp own/8193 /tmp/set/8193
right cmp sign /tmp/set/1; right [ "$(stat -c '%a %h %s %Y' linked)" = "640 2 1 981173106" ]
mkdir names; for n in $(seq 300); do echo $n > names/$n; done; drop
right [ "$(ls names | wc -l)" = 300 ]; cp /bin/busybox .; drop; right ./busybox true
chmod 444 /tmp/set/*; tar cf /tmp/tar -C /tmp/set .; trip
as() { su "u$1" -c "$2" 2> /dev/null; }; not() { ! "$@"; }
for n in 7 8; do echo "u$n:x:$n:$n::/tmp:/bin/sh" >> /etc/passwd; done
echo "all:x:50:u8" > /etc/group; mkdir home; chown 7:7 home
right as 7 "umask 333; echo text > home/only; cp /bin/busybox home/true; tar xf /tmp/tar -C home"
right as 7 "chmod 400 home/only; chmod 711 home/true"; drop
right as 7 "cat home/only"; right not as 8 "cat home/only"; right as 8 home/true
right not as 8 "touch home/true"; chgrp 50 home/only; chmod 664 home/only; drop
right as 8 "echo most >> home/only; touch home/only"; chmod 6755 home/true; drop
right as 7 "printf x >> home/true"; drop; right [ "$(stat -c %a home/true)" = 755 ]
right [ "$(cat home/only | tr '\n' ' ')" = "text most " ]; rm -r home
for it in 0 door; do echo "READY $it"; for n in 1 2 3 4; do trip; done; done
right rm -r busybox linked moved names own sign
right [ -z "$(ls -A)" ]; cd /; right umount /mnt
"""


def initial(folder, room, file):
    """Packs what the guest runs: its modules, as far as there are files of them, and the work."""
    for name in ("bin", "etc", "lib", "proc", "dev", "mnt", "tmp"):
        (room / name).mkdir()
    found = {it.stem: it for it in folder.glob("lib/modules/*/kernel/**/*.ko")}
    listed = [f"{it}.ko" for it in MODULES.split() if it in found]
    for it in listed:
        (room / "lib" / it).write_bytes(found[it[:-3]].read_bytes())
    (room / "modules").write_text("\n".join(listed))
    (room / "work").write_text(WORK)
    (room / "init").write_text(INIT)
    (room / "bin/busybox").write_bytes((folder / "bin/busybox").read_bytes())
    (room / "init").chmod(0o755)
    (room / "bin/busybox").chmod(0o755)
    names = "\n".join(str(it.relative_to(room)) for it in sorted(room.rglob("*")))
    with open(file, "wb") as out:
        words = [room / "bin/busybox", "cpio", "-o", "-H", "newc"]
        subprocess.run(words, input=names.encode(), cwd=room, check=True, stdout=out)


def boot(folder, file, port):
    """The emulator, whose output is what the guest says."""
    (kernel,) = folder.glob("boot/vmlinuz-*")
    emulator = os.environ.get("QEMU", "qemu-system-x86_64")
    words = f"{emulator} -accel tcg -m 512 -nographic -no-reboot -netdev user,id=net"
    words += " -device virtio-net-pci,netdev=net,romfile="
    told = f"console=ttyS0 quiet panic=-1 mitigations=off door={port}"
    words = [*words.split(), "-kernel", kernel, "-initrd", file, "-append", told]
    return subprocess.Popen(words, stdin=subprocess.DEVNULL, stdout=subprocess.PIPE)


def harm(served, what):
    """Kills the door or a server, and starts it again."""
    time.sleep(1)
    served.shut() if what == "door" else served.servers.kill(int(what))
    time.sleep(3)
    served.open() if what == "door" else served.servers.start(int(what))
    print(f"        {what} was killed 3 s ago, and is started", flush=True)


def main(folder, *program):
    begun, said, folder = time.monotonic(), [], Path(folder)
    with tempfile.TemporaryDirectory() as room, Served(program) as served:
        (tree := Path(room, "tree")).mkdir()
        initial(folder, tree, file := Path(room, "initial"))
        guest = boot(folder, file, served.port)
        threading.Timer(1200, guest.kill).start()
        for line in guest.stdout:
            said.append(line.decode(errors="replace").strip())
            print(f"{time.monotonic() - begun:7.1f} {said[-1]}", flush=True)
            if said[-1].startswith("READY "):
                threading.Thread(target=harm, args=(served, said[-1][6:]), daemon=True).start()
        guest.wait()
    is_right = "right: umount /mnt" in said and not any("WRONG" in it for it in said)
    print("all was right" if is_right else "not all was right", flush=True)
    os._exit(0 if is_right else 1)


if __name__ == "__main__":
    sys.exit(__doc__) if len(sys.argv) < 3 else main(*sys.argv[1:])
