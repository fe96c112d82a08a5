"""The promises that calls probably need which the machine does not have."""
GROUPS = {
    "inet or unix": "socket bind connect listen accept accept4 getsockopt setsockopt getpeername getsockname sendto recvfrom shutdown",
    "sendfd or recvfd": "sendmsg recvmsg sendmmsg recvmmsg",
    "fattr": "chmod fchmod fchmodat utime utimes futimes futimens utimensat futimesat chflags fchflags chflagsat",
    "fattr and chown": "chown fchown lchown fchownat",
    "flock": "flock",
    "proc": "kill killpg setpgid setsid setpriority getpriority setrlimit vfork clone clone3 tgkill",
    "id": "setuid setgid seteuid setegid setreuid setregid setresuid setresgid setgroups initgroups setlogin",
    "tty, unless stdio allows it": "ioctl",
    "dpath": "mknod mknodat mkfifo mkfifoat",
    "settime": "settimeofday adjtime adjfreq clock_settime",
    "ps or vminfo, unless stdio allows it": "sysctl __sysctl",
    "rpath": "statfs fstatfs statvfs fstatvfs pathconf __realpath getfsstat",
    "wpath": "truncate truncate64",
    "no promise: call it before the pledge": "chroot mount umount umount2 reboot ktrace acct quotactl revoke swapctl",
}
PROMISES = {name: promise for promise, names in GROUPS.items() for name in names.split()}


def promise_of(words):
    """Returns the promise that a call probably needs, which a comment of a log reader names; None if it says nothing of a call of the program."""
    name = words.split(" ")[0]
    return None if words == "the loader" else PROMISES.get(name, "stdio")
