"""A way to a port that can be cut: it passes bytes on both ways, until it is told to let all go."""
import socket
import threading


class Cutting:
    def __init__(self, port):
        self.port = port
        self.is_down = False
        self.open = []
        self.lock = threading.Lock()
        self.listener = socket.create_server(("127.0.0.1", 0))
        self.own_port = self.listener.getsockname()[1]
        threading.Thread(target=self.take_in, daemon=True).start()

    def take_in(self):
        while True:
            near, _ = self.listener.accept()
            try:
                self.connect(near)
            except OSError:
                near.close()

    def connect(self, near):
        if self.is_down:
            raise OSError
        far = socket.create_connection(("127.0.0.1", self.port))
        for end in (near, far):
            end.setsockopt(socket.IPPROTO_TCP, socket.TCP_NODELAY, 1)
        with self.lock:
            self.open += [near, far]
        for source, sink in ((near, far), (far, near)):
            threading.Thread(target=self.carry, args=(source, sink), daemon=True).start()

    @staticmethod
    def carry(source, sink):
        try:
            while some := source.recv(65536):
                sink.sendall(some)
        except OSError:
            pass
        for end in (source, sink):
            try:
                end.shutdown(socket.SHUT_RDWR)
            except OSError:
                pass

    def cut(self):
        """Lets all go that is open now."""
        with self.lock:
            ends, self.open = self.open, []
        for end in ends:
            try:
                end.shutdown(socket.SHUT_RDWR)
            except OSError:
                pass
            end.close()
