"""The second program of checks/differential/ with the calls of c/tcpcore/tcpcore.py, to run it against the kernel in the library's place."""

import os
import sys

HERE = os.path.dirname(os.path.realpath(__file__))
sys.path.insert(0, f"{HERE}/../differential")

from end import SPACE, End as Model  # noqa: E402
from tcpcore import DONE, DROPPED, NOT_MINE, Refused, Status  # noqa: E402

NAMES = ("retransmit", "reorder", "time-wait")
ARRIVALS = {"processed": DONE, "dropped": DROPPED, "not-mine": NOT_MINE}


class End:
    def __init__(self, config):
        self.model = Model(
            {
                "addr": config.addr,
                "port": config.port,
                "mss": config.mss,
                "isn": config.isn,
                "send": config.send_capacity,
                "recv": config.recv_capacity,
                "shift": config.window_shift,
                "sack": config.sack,
                "limit": config.limit,
            }
        )

    @staticmethod
    def ask(answer):
        if isinstance(answer, tuple):
            (answer,) = answer
            raise Refused(answer)
        return answer

    def free(self):
        self.model = None

    def connect(self, addr, port):
        refusal = self.model.connect((addr, port))
        self.ask(refusal and (refusal,))

    def listen(self):
        refusal = self.model.listen()
        self.ask(refusal and (refusal,))

    def close(self):
        refusal = self.model.close()
        self.ask(refusal and (refusal,))

    def abort(self):
        refusal = self.model.abort()
        self.ask(refusal and (refusal,))

    def send(self, text):
        return self.ask(self.model.send(text))

    def receive(self):
        found = self.ask(self.model.receive(1 << 16))
        return {"nothing": None, "end": b""}.get(found, found)

    def timer(self, timer):
        return self.model.timer(NAMES[timer])

    def arrive(self, src, dst, data):
        answer = self.model.arrive(src, dst, data)
        return ARRIVALS.get(answer) if answer in ARRIVALS else int(answer.split()[1])

    def emit(self):
        return self.model.emit()

    def timers(self):
        return sum((self.model.timer_rule(name) is not None) << bit for bit, name in enumerate(NAMES))

    def status(self):
        model = self.model
        is_agreed = model.rcv_nxt is not None
        return Status(
            phase=model.phase,
            ending=model.ending,
            unread=len(model.unread),
            released=model.released,
            ordered=model.ordered,
            snd_una=(model.snd_una - model.iss) % SPACE,
            rcv_position=1 + model.ordered + model.fin_taken,
            room=min(model.config["send"] - len(model.queue), model.limit - model.accepted),
            queued=len(model.queue),
            in_flight=min(max(0, model.place(model.snd_nxt)), len(model.queue)),
            mss=min(model.config["mss"], model.peer_mss) if is_agreed else 0,
            own_shift=model.own_shift() if is_agreed else 0,
            peer_shift=model.peer_shift,
            scaling=int(model.scaling),
            sack=int(model.sack),
            snd_wnd=model.snd_wnd,
            rcv_wnd=model.window(),
            snd_nxt=(model.snd_nxt - model.iss) % SPACE,
            closing=int(model.closing),
            finished=int(model.fin_taken),
        )
