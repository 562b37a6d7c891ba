#!/usr/bin/env python3
"""Boots Debian's Linux in qemu with OVMF and an emulated TPM, twice, and keeps what the boots leave.

    samples/ovmf-boot/make.py PACKAGES [DIR]

PACKAGES is a folder into which `dpkg -x` has unpacked the packages busybox-static, shim-signed, shim-helpers-amd64-signed,
grub-efi-amd64-signed, systemd-boot-efi and linux-image-..-amd64. Writes the files of this folder, anew, into DIR (by default this
folder). Needs qemu-system-x86, ovmf, swtpm-tools, gdisk, dosfstools and mtools. Other versions of the packages make other logs."""

import base64
import gzip
import os
import re
import subprocess
import sys
import tempfile
from pathlib import Path

DISK = "6f1b0f4e-3a53-4c6e-9c57-1f2d0a9b7e10"
PARTITIONS = [
    ["-n", "1:2048:+48M", "-t", "1:ef00", "-c", "1:EFI System Partition", "-u", "1:0d3c1d2a-52a4-4b6e-8a0e-6a5f0f5c2b11"],
    ["-n", "2:0:0", "-t", "2:8300", "-c", "2:Wurzel größe", "-u", "2:5b0c1c0e-7c3d-4b3c-b1a4-2d6f8e9a1c12"],
]
COMMAND_LINE = "console=ttyS0 quiet ima_policy=tcb ima_template=ima-ng"
FIRMWARE = Path("/usr/share/OVMF")
MOST_BOOTS, MOST_SECONDS = 3, 900
# The first program of the system: it sends what the boot left through the second serial port, and turns the machine off.
INIT = r"""#!/bin/busybox sh
b=/bin/busybox
$b mkdir -p /proc /sys /dev
$b mount -t proc proc /proc
$b mount -t sysfs sys /sys
$b mount -t devtmpfs dev /dev
$b mount -t securityfs sec /sys/kernel/security
$b stty -F /dev/ttyS1 115200 raw
{
  echo; echo "-- log"; $b base64 /sys/kernel/security/tpm0/binary_bios_measurements
  echo "-- expected"
  for bank in sha1 sha256; do
    for n in $($b seq 0 23); do
      [ -r /sys/class/tpm/tpm0/pcr-$bank/$n ] && echo "$bank $n $($b cat /sys/class/tpm/tpm0/pcr-$bank/$n)"
    done
  done
  echo "-- list"; $b base64 /sys/kernel/security/ima/binary_runtime_measurements
  echo "-- end"
} > /dev/ttyS1 2>&1
$b poweroff -f
"""
GRUB = f"set timeout=0\nlinux /vmlinuz {COMMAND_LINE}\ninitrd /initrd.gz\nboot\n"
ENTRY = f"title Debian\nlinux /vmlinuz\ninitrd /initrd.gz\noptions {COMMAND_LINE}\n"


def tool(*words, **settings):
    """Runs a tool that must succeed."""
    return subprocess.run([str(word) for word in words], check=True, stdout=subprocess.PIPE, **settings).stdout


def shim_files(packages):
    """Files of an EFI System Partition that starts shim, which starts GRUB. The fallback of shim makes the boot entry first."""
    shim, grub = packages / "usr/lib/shim", packages / "usr/lib/grub/x86_64-efi-signed/grubx64.efi.signed"
    entry = "shimx64.efi,debian,,This is the boot entry for debian\n"
    return {
        "EFI/BOOT/BOOTX64.EFI": (shim / "shimx64.efi.signed").read_bytes(),
        "EFI/BOOT/fbx64.efi": (shim / "fbx64.efi.signed").read_bytes(),
        "EFI/debian/shimx64.efi": (shim / "shimx64.efi.signed").read_bytes(),
        "EFI/debian/grubx64.efi": grub.read_bytes(),
        "EFI/debian/BOOTX64.CSV": entry.encode("utf-16"),
        "EFI/debian/grub.cfg": GRUB.encode(),
    }


def systemd_files(packages):
    """Files of one that starts systemd-boot."""
    return {
        "EFI/BOOT/BOOTX64.EFI": (packages / "usr/lib/systemd/boot/efi/systemd-bootx64.efi").read_bytes(),
        "loader/loader.conf": b"default a.conf\ntimeout 0\n",
        "loader/entries/a.conf": ENTRY.encode(),
    }


# Of each boot: the banks, the firmware's code and variables, and the files of the EFI System Partition.
BOOTS = {
    "secure-boot": ("sha1,sha256", "OVMF_CODE_4M.ms.fd", "OVMF_VARS_4M.ms.fd", shim_files),
    "systemd-boot": ("sha256", "OVMF_CODE_4M.fd", "OVMF_VARS_4M.fd", systemd_files),
}


def make_initrd(packages, folder):
    """A gzipped archive with `init` and busybox."""
    (folder / "bin").mkdir(parents=True)
    (folder / "bin/busybox").write_bytes((packages / "bin/busybox").read_bytes())
    (folder / "init").write_text(INIT)
    for file in ("init", "bin/busybox"):
        (folder / file).chmod(0o755)
    packed = tool(folder / "bin/busybox", "cpio", "-o", "-H", "newc", cwd=folder, input=b".\n./bin\n./bin/busybox\n./init\n")
    return gzip.compress(packed, mtime=0)


def make_disk(disk, files):
    """A disk with a table of partitions, of which the first has these files."""
    disk.write_bytes(b"")
    os.truncate(disk, 64 << 20)
    tool("sgdisk", "-U", DISK, *(word for partition in PARTITIONS for word in partition), disk)
    system, tree = disk.with_suffix(".esp"), disk.with_suffix(".files")
    system.write_bytes(b"")
    os.truncate(system, 48 << 20)
    tool("mkfs.vfat", "-F", "32", "-n", "ESP", "-i", "1234abcd", "--invariant", system)
    for name, data in files.items():
        (tree / name).parent.mkdir(parents=True, exist_ok=True)
        (tree / name).write_bytes(data)
    tool("mcopy", "-i", system, "-s", *tree.iterdir(), "::")
    with open(disk, "r+b") as opened:
        opened.seek(1 << 20)
        opened.write(system.read_bytes())


def run_machine(folder, disk, code):
    """Runs the machine until it turns off or resets: what it sent through the second serial port."""
    tpm, sent = folder / "tpm.socket", folder / "sent"
    tool("swtpm", "socket", "--tpm2", "--tpmstate", f"dir={folder / 'tpm'}", "--ctrl", f"type=unixio,path={tpm}", "--terminate", "--daemon")
    drives = [
        f"if=pflash,format=raw,unit=0,file={FIRMWARE / code},readonly=on",
        f"if=pflash,format=raw,unit=1,file={folder / 'variables'}",
        f"file={disk},format=raw,if=none,id=disk,snapshot=on",
    ]
    tool(
        "nice", "-n", "10", "qemu-system-x86_64", "-machine", "q35,smm=on,accel=tcg", "-cpu", "qemu64,+rdrand", "-m", "512",
        "-display", "none", "-monitor", "none", "-net", "none", "-no-reboot", "-global", "driver=cfi.pflash01,property=secure,value=on",
        *(word for drive in drives for word in ("-drive", drive)), "-device", "ide-hd,drive=disk",
        "-chardev", f"socket,id=tpm,path={tpm}", "-tpmdev", "emulator,id=tpm0,chardev=tpm", "-device", "tpm-crb,tpmdev=tpm0",
        "-serial", f"file:{folder / 'console'}", "-serial", f"file:{sent}", timeout=MOST_SECONDS,
    )
    return sent.read_text(errors="replace").replace("\r", "")


def boot(folder, name, packages, initrd):
    """Boots until the system runs: the bytes of the log and the list, and the text of the registers."""
    banks, code, variables, files = BOOTS[name]
    [kernel] = (packages / "boot").glob("vmlinuz-*")
    (folder / "tpm").mkdir(parents=True)
    (folder / "variables").write_bytes((FIRMWARE / variables).read_bytes())
    tool("swtpm_setup", "--tpm2", "--tpmstate", folder / "tpm", "--pcr-banks", banks)
    make_disk(folder / "disk", {**files(packages), "vmlinuz": kernel.read_bytes(), "initrd.gz": initrd})
    for _ in range(MOST_BOOTS):
        sent = run_machine(folder, folder / "disk", code)
        parts = dict(re.findall(r"^-- (\w+)\n(.*?)(?=^-- )", sent, re.MULTILINE | re.DOTALL))
        if len(parts) == 3:
            return base64.b64decode(parts["log"]), base64.b64decode(parts["list"]), parts["expected"].lower()
    sys.exit(f"{name}: the system did not run")


def main():
    packages = Path(sys.argv[1]).resolve()
    into = Path(sys.argv[2] if len(sys.argv) > 2 else Path(__file__).parent).resolve()
    with tempfile.TemporaryDirectory() as made:
        initrd = make_initrd(packages, Path(made) / "initrd")
        for name in BOOTS:
            log, listed, expected = boot(Path(made) / name, name, packages, initrd)
            (into / f"{name}.log").write_bytes(log)
            (into / f"{name}.list").write_bytes(listed)
            (into / f"{name}.expected").write_text(expected)


main()
