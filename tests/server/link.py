"""A link that fails, in front of a master."""
import collections
import socket
import threading

HAPPENINGS = ["ok"] * 5 + ["lose_request", "lose_reply", "twice", "late", "stale"]


class Link:
    """A door in front of a master at which requests and replies are lost, sent twice, late or stale, as the
    draws of a seed say."""

    def __init__(self, port, numbers=None):
        self.port, self.numbers, self.asked, self.replies = port, numbers, [], [b"\n"]
        self.seen, self.door = collections.Counter(), socket.create_server(("127.0.0.1", 0))
        threading.Thread(target=self.accept, daemon=True).start()

    def port_in_front(self):
        return self.door.getsockname()[1]

    def accept(self):
        while True:
            wire, _ = self.door.accept()
            try:
                with wire, socket.create_connection(("127.0.0.1", self.port)) as master:
                    self.carry(wire.makefile("rb"), wire, master.makefile("rwb"))
            except OSError:
                self.seen["broken"] += 1

    def carry(self, requests, wire, master):
        for line in requests:
            happening = self.numbers.choice(HAPPENINGS) if self.numbers else "ok"
            self.seen[happening] += 1
            if happening == "lose_request":
                return
            if happening == "late" and self.asked:
                self.handled(master, self.numbers.choice(self.asked[-16:]))
            reply = self.handled(master, line)
            self.asked.append(line)
            if happening == "twice":
                self.handled(master, line)
            if happening == "stale":
                wire.sendall(self.numbers.choice(self.replies[-5:]))
            if happening in ("lose_reply", "stale"):
                return
            self.replies.append(reply)
            wire.sendall(reply)

    @staticmethod
    def handled(master, line):
        master.write(line)
        master.flush()
        reply = master.readline()
        if not reply.endswith(b"\n"):
            raise OSError("the master ended")
        return reply
