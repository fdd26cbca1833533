"""The servers of bench/serve: filehost over TCP and in memory, nginx and lighttpd, with as many workers and the same limits of a connection."""

from servers import HOST, FolderServer, Host, Nginx, find

from loads import RANGED
from lib.client import HEAP, REQUESTS
from lib.served import free_ports

WORKERS = 2
# How long a server keeps an idle connection, as filehost does.
IDLE_SECONDS = 15
# How many connections a worker of nginx or lighttpd has room for: all that are made, since one may take them all.
ROOM = 1_100


class ServedHost(Host):
    """The program, which serves in memory. A tracer may start it, which is then the head of its command."""

    variables = HEAP

    def __init__(self, stack, title, folder, program, tracer=()):
        super().__init__(stack, title, free_ports())
        self.folder, self.program, self.tracer = folder, program, tracer
        folder.mkdir()
        self.start()

    def command(self):
        return [*self.tracer, self.program, "serve", "--listen", f"{HOST}:{self.port}", "--workers", str(WORKERS)]


class WorkerNginx(Nginx):
    workers, connections = WORKERS, ROOM
    # All files that are read fit in its cache of open files.
    more = f"open_file_cache max=2000; keepalive_requests {REQUESTS}; keepalive_timeout {IDLE_SECONDS}s;"
    # A packet of loopback has 64 KiB. With tcp_nopush the rest of a range, a small packet, waits for an acknowledgement, which the client delays by 40 ms.
    more_of_site = f"location = {RANGED} {{ tcp_nopush off; }}"


class Lighttpd(FolderServer):
    def command(self):
        configuration = self.folder / "lighttpd.conf"
        # It counts the requests of a connection after the first.
        configuration.write_text(f"""server.document-root = "{self.root}"
server.bind = "{HOST}"
server.port = {self.port}
server.upload-dirs = ( "{self.folder}" )
server.max-worker = {WORKERS}
server.max-fds = {2 * ROOM}
server.max-connections = {ROOM}
server.max-keep-alive-requests = {REQUESTS - 1}
server.max-keep-alive-idle = {IDLE_SECONDS}
mimetype.assign = ( "" => "application/octet-stream" )
""")
        return [find("lighttpd"), "-D", "-f", configuration]
