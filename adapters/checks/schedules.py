"""Random schedules of a broker, for clients that many threads share: each is played by its seed, and what the client's threads were told is compared
with what the broker said."""
import random
import select
import struct
import subprocess
import zlib

import scripted
from scripted import Broker, HungUp


def marks(body, is_mandatory):
    """What becomes of a publish, by its body and whether it is mandatory: nack, returned or ack."""
    found = ("nack", "returned", *("ack",) * 6)[zlib.crc32(body) % 8]
    return "ack" if found == "returned" and not is_mandatory else found


def ready(peer, seconds):
    """Whether octets are there within the time."""
    return bool(peer.data) or bool(select.select([peer.sock], [], [], seconds)[0])


class Confirming:
    """A broker's part that settles publishes by their bodies: in random batches, some by one for many, in a random order. It notes what it said, in
    which order publishes and calls came, and how many publishes were open at once."""

    def __init__(self, peer, chance):
        self.peer, self.chance = peer, chance
        self.said, self.order, self.open, self.tags, self.most_open = {}, [], {}, {}, 0

    def publish(self, channel, payload):
        """A publish came, whose content follows."""
        body = self.peer.content(channel)
        assert body not in self.order, "a publish came twice"
        self.tags[channel] = tag = self.tags.get(channel, 0) + 1
        self.order.append(body)
        self.open.setdefault(channel, []).append((tag, body, marks(body, payload[-1] & 1)))
        self.most_open = max(self.most_open, sum(map(len, self.open.values())))

    def answer(self, channel, at, payload):
        """Answers what each client of these begins with; whether it did."""
        if at == (20, 10):
            self.peer.send(scripted.method(channel, 20, 11, bytes(4)))
        elif at == (85, 10):
            self.peer.send(scripted.method(channel, 85, 11))
        elif at == (60, 40):
            self.publish(channel, payload)
        elif at == (50, 10):
            name = payload[7:7 + payload[6]]
            self.order.append(name)
            self.peer.send(scripted.method(channel, 50, 11, scripted.short_text(name) + bytes(8)))
        else:
            return False
        return True

    def settle(self):
        """Settles what is open, of each channel apart."""
        data = b""
        for channel, several in self.open.items():
            while several:
                run = 1
                while run < len(several) and (several[run][2] == "nack") == (several[0][2] == "nack"):
                    run += 1
                data += self.settled(channel, several[:run], scripted.nack if several[0][2] == "nack" else scripted.ack)
                del several[:run]
        self.peer.send(data, pieces=self.chance.choice((0, 0, 7, 100)))

    def settled(self, channel, run, of):
        """The frames that settle a run. What comes back comes in the order of the publishes, in front of its acknowledgement, as RabbitMQ has it."""
        self.said.update((body, what) for _, body, what in run)
        back = [scripted.returned(channel, "q", body) if what == "returned" else b"" for _, body, what in run]
        if self.chance.random() < 0.5:
            return b"".join(back) + of(channel, run[-1][0], multiple=1)
        frames = [came + of(channel, tag) for came, (tag, _, _) in zip(back, run)]
        return b"".join(frames if any(back) else self.chance.sample(frames, len(run)))


def in_order(order):
    """Whether what each thread made came in its order: names are THREAD.NUMBER."""
    last = {}
    for name in order:
        thread, number = map(int, name.split(b"."))
        if number <= last.get(thread, -1):
            return False
        last[thread] = number
    return True


class Schedule:
    """A schedule by its seed: of three one is cut at a random place, and of eight the client closes one, and the broker closes a channel in one."""

    def __init__(self, seed):
        self.seed, self.chance = seed, random.Random(seed)
        self.cut = self.chance.randint(8, 90) if seed % 3 == 2 else None
        self.channel_end = self.chance.randint(8, 60) if seed % 8 == 3 else None
        self.is_plain = self.cut is None and self.channel_end is None and seed % 8 != 5
        self.sent, self.settled, self.confirming = 0, set(), None

    def play(self, peer):
        peer.open(frame_max=131072)
        self.confirming = Confirming(peer, self.chance)
        try:
            self.go_on(peer)
        except (HungUp, OSError):
            assert not self.is_plain, f"schedule {self.seed} ended early"

    def go_on(self, peer):
        frames, until_settled, is_consuming = 0, 0, False
        while True:
            if not ready(peer, 0.001 * self.chance.randint(0, 2)) or until_settled == 0:
                self.confirming.settle()
                until_settled = self.chance.randint(1, 15)
                if is_consuming and self.sent < 60:
                    self.deliver(peer)
                self.notice(peer)
                if not ready(peer, 0.3):
                    continue
            kind, channel, payload = peer.frame()
            frames, until_settled = frames + 1, until_settled - 1
            at = struct.unpack(">HH", payload[:4])
            if frames == self.cut:
                peer.send(scripted.deliver(1, "t", 1, b"x" * 50)[:self.chance.randint(0, 40)])
                raise HungUp
            if frames == self.channel_end:
                peer.send(scripted.channel_close(3, 406, "PRECONDITION_FAILED - by chance"))
            if self.confirming.answer(channel, at, payload):
                continue
            if at == (60, 20):
                peer.send(scripted.method(channel, 60, 21, scripted.short_text("t")))
                is_consuming = True
            elif at in ((60, 80), (60, 120)):
                tag = struct.unpack(">Q", payload[4:12])[0]
                assert tag not in self.settled and 0 < tag <= self.sent, f"tag {tag} is settled twice, or isn't there"
                self.settled.add(tag)
            elif at == (10, 50):
                return peer.send(scripted.method(0, 10, 51))
            else:
                assert at == (20, 41), at

    def deliver(self, peer):
        """Sends a few messages."""
        many = self.chance.randint(0, 8)
        data = b"".join(scripted.deliver(1, "t", self.sent + k, b"%d" % (self.sent + k)) for k in range(1, many + 1))
        self.sent += many
        peer.send(data, pieces=self.chance.choice((0, 11, 200)))

    def notice(self, peer):
        """Now and then a notice, or a heartbeat."""
        what = self.chance.randint(0, 9)
        if what < 2:
            peer.send(scripted.method(0, 10, 60, scripted.short_text("low")) + scripted.method(0, 10, 61))
        elif what == 2:
            peer.send(scripted.frame(8, 0, b""))

    def judge(self, lines, end):
        """Looks at what the client's threads were told."""
        said = {body.decode(): what for body, what in self.confirming.said.items()} if self.confirming else {}
        messages = [int(line.split()[1]) for line in lines if line[0] == "m"]
        assert len(set(messages)) == len(messages) and set(messages) <= set(range(1, self.sent + 1)), f"{self.seed}: messages {messages}"
        assert self.confirming is None or in_order(self.confirming.order), f"{self.seed}: {self.confirming.order}"
        assert end == "closed" or not self.is_plain, f"{self.seed}: {end}"
        counts = {}
        for line in lines:
            kind, name, what = line.split(" ", 2) if line[0] != "m" else ("m", "", "")
            is_error = what in ("error", "no") and not self.is_plain
            assert is_error or kind == "m" or what == ("yes" if kind == "c" else said.get(name)), f"{self.seed}: {line} where the broker said {said.get(name)}"
            counts[kind + what] = counts.get(kind + what, 0) + 1
        return counts


def scheduled(words, seed, rounds):
    """Plays so many schedules from a seed on to a program, which is run by these words of an address; how often each thing was told."""
    schedules, counts, came = [Schedule(seed + k) for k in range(rounds)], {}, iter(range(rounds))
    with Broker(lambda peer: schedules[next(came)].play(peer), many=True) as url:
        host, _, port = url.split("@")[1].rstrip("/").partition(":")
        words = [*words, host, port, str(seed), str(rounds)]
        done = subprocess.run(words, stdout=subprocess.PIPE, stderr=subprocess.STDOUT, text=True, timeout=600, check=False)
        assert done.returncode == 0, f"status {done.returncode}: {done.stdout[-2000:]}"
    lines, place = [], 0
    for line in done.stdout.splitlines():
        if line.split()[0] in ("closed", "lost"):
            for what, count in schedules[place].judge(lines, line.split()[0]).items():
                counts[what] = counts.get(what, 0) + count
            assert int(line.split()[1]) == schedules[place].seed
            lines, place = [], place + 1
        else:
            lines.append(line)
    assert place == rounds, f"{place} of {rounds} rounds"
    return counts
