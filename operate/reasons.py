"""Why the program can't do what it is asked for: of each thing that it needs, the lines that say what is wrong with it. Nothing is changed."""

import errno
import fcntl
import hashlib
import os
import pathlib
import pwd
import resource
import socket
import stat

import journal
import piece_tables
from shown_text import shown
from store_source import end_of_records, records_of

# How many descriptors the program keeps for itself, for each node and for each thread that waits for sockets; how many of these a node has beside its workers;
# and how many connections a node needs (docs/WIRE.md, "Deadlines and places").
OF_PROGRAM, OF_NODE, OF_THREAD, OTHERS, LEAST = 16, 8, 2, 2, 8


def name_of(user):
    try:
        return pwd.getpwuid(user).pw_name
    except KeyError:
        return str(user)


def process(number):
    """A process in words: its number and command, as far as the system tells them."""
    try:
        words = pathlib.Path(f"/proc/{number}/cmdline").read_bytes().rstrip(b"\0").replace(b"\0", b" ").decode(errors="replace")
    except OSError:
        words = ""
    return f"process {number} ({shown(words)})" if words else f"process {number}"


def who_locks(path):
    """The process that has a lock on a file or a folder, in words."""
    told = os.stat(path)
    mark = f"{os.major(told.st_dev):02x}:{os.minor(told.st_dev):02x}:{told.st_ino}"
    lines = (line.split() for line in pathlib.Path("/proc/locks").read_text().splitlines())
    holders = [parts[4] for parts in lines if len(parts) > 5 and parts[1] == "FLOCK" and parts[5] == mark]
    return process(holders[0]) if holders else "another program"


def is_locked(path):
    """Whether a program has this locked. The lock that is tried goes at once."""
    descriptor = os.open(path, os.O_RDONLY)
    try:
        fcntl.flock(descriptor, fcntl.LOCK_EX | fcntl.LOCK_NB)
        return False
    except BlockingIOError:
        return True
    finally:
        os.close(descriptor)


def owner_of(path):
    told = os.stat(path)
    return f"it belongs to {name_of(told.st_uid)}, has the mode {stat.S_IMODE(told.st_mode):04o}, and this is {name_of(os.geteuid())}"


def of_way(folder):
    """What is wrong on the way to a folder: the first part of it that isn't there, isn't a folder or can't be entered."""
    at = pathlib.Path(os.path.abspath(folder))
    for part in [*reversed(at.parents), at]:
        try:
            told = os.stat(part)
        except OSError as error:
            return [f"{shown(part)}: {error.strerror}" + (": make it, as its owner the user of the program" if error.errno == errno.ENOENT else "")]
        if not stat.S_ISDIR(told.st_mode):
            return [f"{shown(part)}: it is a file, and no folder"]
        if not os.access(part, os.X_OK, effective_ids=True):
            return [f"{shown(part)}: no permission to enter it: {owner_of(part)}"]
    return []


def of_folder(folder):
    """What is wrong with the folder of a store."""
    if found := of_way(folder):
        return found
    if not os.access(folder, os.R_OK, effective_ids=True):
        return [f"{shown(folder)}: no permission to read it: {owner_of(folder)}"]
    if is_locked(folder):
        return [f"{shown(folder)}: {who_locks(folder)} has it open"]
    disk = os.statvfs(folder)
    if disk.f_flag & os.ST_RDONLY:
        return [f"{shown(folder)}: Read-only file system"]
    if not os.access(folder, os.W_OK, effective_ids=True):
        return [f"{shown(folder)}: no permission to write into it: {owner_of(folder)}"]
    if not disk.f_bavail or (disk.f_files and not disk.f_favail):
        return [f"{shown(folder)}: No space left on device" + ("" if disk.f_bavail else f": {disk.f_blocks * disk.f_frsize:,} bytes are all used")]
    return []


def owner_beside_root(folder):
    """The owner of a folder, if this is root and the owner is somebody else, who may do less."""
    owner = os.stat(folder).st_uid
    return name_of(owner) if owner and os.geteuid() == 0 else None


def of_slot(file):
    """What is wrong with the file of a slot, if there is one, beside what it has."""
    if not os.path.lexists(file):
        return []
    if not file.is_file():
        return [f"{shown(file)}: it is no file"]
    for right, word in ((os.R_OK, "read"), (os.W_OK, "write")):
        if not os.access(file, right, effective_ids=True):
            return [f"{shown(file)}: no permission to {word} it: {owner_of(file)}"]
    return [f"{shown(file)}: {who_locks(file)} has it open"] if is_locked(file) else []


def of_header(folder, slots):
    """Why two slots aren't opened, by their headers."""
    for name, slot in zip(journal.SLOTS, slots):
        try:
            journal.generation_of(slot)
        except journal.BadHeader:
            file = shown(pathlib.Path(folder) / name)
            return [f"{file}: it is no journal (BadHeader): its first bytes are {slot[:17].hex(' ')}, and those of a journal {journal.EMPTY.hex(' ')}"]
    return [f"{shown(folder)}: `journal` and `journal.2` have one generation (BadHeader): only one of them is this store's"]


def of_records(folder, slots):
    """What is wrong with the records of two slots."""
    file = pathlib.Path(folder) / journal.SLOTS[journal.place_read(slots)]
    try:
        journal.read(*slots)
    except journal.BadRecord as fault:
        records = records_of(slots)
        gate, count = end_of_records(records)
        size = len(file.read_bytes())
        where = f"its bytes end at {size:,}" if fault.args[0] > count else "its text is that of no entry"
        return [f"{shown(file)}: record {fault.args[0]} is malformed (BadRecord): {where}; {count:,} records before byte {size - len(records) + gate:,} are whole"]
    return []


def of_journal(folder):
    """What is wrong with the journal of a store. That there is none is no fault: the program makes one."""
    for name in journal.SLOTS:
        if found := of_slot(pathlib.Path(folder) / name):
            return found
    try:
        slots = journal.slots_in(folder)
        place = journal.place_read(slots)
    except OSError as error:
        return [f"{shown(error.filename)}: {error.strerror}"]
    except journal.BadHeader:
        return of_header(folder, slots)
    if place is None:
        is_used = any(name.startswith(("c-", "t-", journal.KEPT)) for name in os.listdir(folder))
        return [f"{shown(folder)}: it has files of a store and no journal: it would begin with an empty history"] if is_used else []
    return of_records(folder, slots)


def fault_of(folder, digest):
    """What is wrong with a stored file, if anything is."""
    table = pathlib.Path(folder) / f"t-{digest}"
    if not table.exists():
        return "MissingBlob", f"{shown(table)}: there is no such file"
    try:
        size, names = piece_tables.read(table.read_bytes())
    except piece_tables.BadTable:
        return "DamagedBlob", f"{shown(table)}: it has {table.stat().st_size:,} bytes, which are the table of no file"
    whole = hashlib.sha1()
    for name in names:
        piece = pathlib.Path(folder) / f"c-{name}"
        if not piece.exists():
            return "DamagedBlob", f"{shown(piece)}: there is no such file, and {shown(table.name)} names it"
        content = piece.read_bytes()
        if hashlib.sha1(content).hexdigest() != name:
            return "DamagedBlob", f"{shown(piece)}: its {len(content):,} bytes have another SHA-1"
        whole.update(content)
    return None if whole.hexdigest() == digest else ("DamagedBlob", f"{shown(table)}: the pieces that it names are those of another file")


def of_files(folder):
    """What is wrong with the files that a published deploy of a store lists, each with where it is listed; as the program, in the order of digests."""
    entries = journal.read_in(folder)
    published = {entry[2] for entry in entries if entry[0] in ("publish", "restore")}
    listed = {}
    for number, (kind, site, *parts) in enumerate(entries, 1):
        if kind == "open" and number in published:
            listed.update({digest: (site, number, path) for path, digest in parts[1] if digest})
    found = []
    for digest in sorted(listed):
        try:
            fault = fault_of(folder, digest)
        except OSError as error:
            fault = "Device", f"{shown(error.filename)}: {error.strerror}"
        if fault:
            site, number, path = listed[digest]
            found.append(f"{fault[1]} ({fault[0]} {digest}: {shown(path)} of deploy {number} of the site {site})")
    return found


def who_listens(host, port):
    """The process that listens on a port, in words, if the system tells it."""
    wanted = set()
    for table in ("tcp", "tcp6"):
        for line in pathlib.Path(f"/proc/net/{table}").read_text().splitlines()[1:]:
            parts = line.split()
            if parts[3] == "0A" and int(parts[1].rpartition(":")[2], 16) == port:
                wanted.add(f"socket:[{parts[9]}]")
    for folder in pathlib.Path("/proc").glob("[0-9]*/fd"):
        try:
            if any(os.readlink(one) in wanted for one in folder.iterdir()):
                return process(folder.parent.name)
        except OSError:
            continue
    return "another program"


def of_ports(host, port, nodes):
    """What is wrong with the ports of nodes: those for clients, and those for other nodes."""
    found = []
    family = socket.AF_INET6 if ":" in host else socket.AF_INET
    for node in range(nodes):
        for use, number in (("clients", port + node), ("other nodes", port + 8 + node)):
            with socket.socket(family, socket.SOCK_STREAM) as trial:
                trial.setsockopt(socket.SOL_SOCKET, socket.SO_REUSEADDR, 1)
                try:
                    trial.bind((host, number))
                    trial.listen()
                except OSError as error:
                    found.append(f"{host}:{number}, node {node} for {use}: {error.strerror}{more_of(error, host, number)}")
    return found


def more_of(error, host, port):
    if error.errno == errno.EADDRINUSE:
        return f": {who_listens(host, port)} has it"
    if error.errno == errno.EADDRNOTAVAIL:
        return ": this machine has no such address (ip address)"
    if error.errno == errno.EACCES:
        return ": ports below 1024 are for root"
    return ""


def of_descriptors(nodes, workers):
    """Whether the limit of descriptors leaves enough for each node, with so many workers."""
    hard = resource.getrlimit(resource.RLIMIT_NOFILE)[1]
    least = OF_PROGRAM + nodes * (OF_NODE + OF_THREAD * (workers + OTHERS) + LEAST)
    if hard != resource.RLIM_INFINITY and hard < least:
        return [f"the limit of descriptors (ulimit -H -n) is {hard}: {nodes} nodes need {least} at least"]
    return []
