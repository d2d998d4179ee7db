"""The connection for C, compiled here, against the scripted broker. `in_c_library` has the checks of the library alone."""
import os
import shutil
import struct
import subprocess
import time

import scripted
from checks import in_c_library  # noqa: F401  (its tests count here)
from checks.common import ADAPTERS, address, confirms, rabbit, said, test
from checks.in_c_library import by, c_answers_nothing_and_extremes, c_reads_and_writes_values, program
from scripted import Broker, HungUp


def tutorial(name):
    return program(name, f"{ADAPTERS}/c/tutorials/{name}.c")


def fails_by(words, status=1):
    """What a program says that fails."""
    done = subprocess.run([str(it) for it in words], stdout=subprocess.PIPE, stderr=subprocess.STDOUT, text=True, timeout=120, errors="replace")
    assert done.returncode == status, f"status {done.returncode}: {done.stdout[-500:]}"
    return done.stdout


@test
def c_publishes_with_a_confirm():
    def script(peer):
        confirms(peer, frame_max=8192)
        peer.declare(1, "hello")
        assert peer.expect_publish(1) == ("hello", b"Hello World!")
        peer.send(scripted.ack(1, 1), pieces=1)
        peer.close()
    with Broker(script) as url:
        assert "answers ack" in said(tutorial("send"), *address(url))


@test
def c_consumes_in_pieces():
    def script(peer):
        peer.open()
        peer.channel(1)
        peer.declare(1, "hello")
        peer.consume(1, "t")
        peer.send(scripted.deliver(1, "t", 1, b"first") + scripted.deliver(1, "t", 2, b"second"), pieces=1)
        peer.expect(1, 60, 80)
        peer.expect(1, 60, 80)
        peer.close()
    with Broker(script) as url:
        told = said(tutorial("receive"), *address(url), 2)
        assert "Received first" in told and "Received second" in told


@test
def c_tells_a_cut_connection_and_garbage():
    for last in (b"", b"\xff" * 32, scripted.channel_close(1, 404)):
        def script(peer, last=last):
            confirms(peer)
            peer.expect(1, 50, 10)
            peer.send(last)
            if last:
                try:
                    peer.frame()
                except HungUp:
                    pass
        with Broker(script) as url:
            told = fails_by([tutorial("send"), *address(url)])
            assert ("ProtocolError 404" if last[:1] == b"\x01" else "ConnectionLost") in told, told


@test
def c_makes_each_call_as_the_standard_has_it():
    q, e, k, none = (scripted.short_text(it) for it in ("q", "e", "k", ""))
    table, empty, ticket = scripted.long_text(b"\x01nI\x00\x00\x00\x05" + b"\x01fd" + struct.pack(">d", 1.5)), bytes(4), bytes(2)
    message = struct.pack(">QB", 7, 0) + none + scripted.short_text("key") + struct.pack(">I", 4)
    found = scripted.method(1, 60, 71, message) + scripted.content(1, b"body", b"\x04\x00" + scripted.short_text(b"\xe9"))
    calls = [(50, 10, ticket + q + b"\x0a" + table, q + struct.pack(">II", 3, 2)), (50, 10, ticket + none + b"\x05" + empty, q + bytes(8)),
             (40, 10, ticket + e + scripted.short_text("topic") + b"\x0a" + table, b""), (40, 10, ticket + e + scripted.short_text("topic") + b"\x05" + empty, b""),
             (40, 30, ticket + scripted.short_text("d") + scripted.short_text("s") + k + b"\x00" + table, b""), (50, 20, ticket + q + e + k + b"\x00" + table, b""),
             (50, 50, ticket + q + e + k + empty, b""), (50, 30, ticket + q + b"\x00", struct.pack(">I", 11)), (50, 40, ticket + q + b"\x03", struct.pack(">I", 12)),
             (40, 20, ticket + e + b"\x01", b""), (60, 10, bytes(4) + b"\x01\x2c\x01", b""), (60, 110, b"\x01", b""), (60, 70, ticket + q + b"\x00", None),
             (60, 70, ticket + q + b"\x01", found), (60, 20, ticket + q + scripted.short_text("t") + b"\x05" + table, scripted.short_text("t")),
             (60, 30, scripted.short_text("t") + b"\x00", scripted.short_text("t")), (90, 10, b"", b""), (90, 20, b"", b""), (90, 30, b"", b"")]

    def script(peer):
        peer.open(frame_max=8192)
        peer.channel(1)
        for klass, number, fields, answer in calls:
            given = peer.expect(1, klass, number)
            assert given == fields, f"{klass}.{number}: {given} where {fields} is right"
            peer.send(found if answer is found else scripted.method(1, klass, number + (2 if answer is None else 1), none if answer is None else answer))
        assert peer.expect(1, 20, 40) == b"\x00\xc8" + scripted.short_text("bye") + bytes(4)
        peer.send(scripted.method(1, 20, 41))
        peer.close()
    with Broker(script) as url:
        told = said(program("calls"), *address(url)).splitlines()
    assert told == ["queue q, 3 messages, 2 consumers", "purged 11", "deleted 12", "got body of key, 4 left", "consumer t",
                    "refused: yes; InvalidChannelState closed"], told


def no_route(key, body, properties=b"\x00\x80\x011"):
    """A message that comes back, with the message_id 1."""
    head = struct.pack(">H", 312) + scripted.short_text("NO_ROUTE") + scripted.short_text("") + scripted.short_text(key)
    return scripted.method(1, 60, 50, head) + scripted.content(1, body, properties)


@test
def c_gives_what_came_back_to_its_own_publish():
    def script(peer):
        """Two publishes of four come back, and one settlement covers all; the other of the two is in front of an equal one that is routed later."""
        confirms(peer)
        peer.declare(1, "returned-in-c")
        for _ in range(2):
            sent = [peer.expect_publish(1) for _ in range(6)]
            lost = [(key, body) for key, body in sent if key == "nobody"]
            assert len(lost) == 3, sent
            peer.send(b"".join(no_route(*it) for it in lost[:2]), pieces=7)
            base = int(sent[0][1])
            peer.send(scripted.ack(1, base + 4, multiple=1) + no_route(*lost[2]) + scripted.ack(1, base + 6) + scripted.ack(1, base + 5))
        peer.close()
    for order in (0, 1):
        with Broker(script) as url:
            told = said(program("returned"), *address(url), 12, 6, 2, order)
            assert told.startswith("6 acks, 6 came back, 0 wrong"), told


@rabbit
def c_gives_what_rabbitmq_returns_to_its_own_publish(url):
    for window, each, order in ((1000, 2, 0), (10000, 10, 0), (1000, 3, 1), (1, 2, 0)):
        count = 20000 if window > 1 else 500
        told = said(program("returned"), *address(url), count, window, each, order)
        assert f" {count // each} came back, 0 wrong" in told, told


@test
def c_loses_nothing_to_signals():
    def script(peer):
        peer.open(pieces=1, frame_max=131072)
        peer.channel(1, confirms=True)
        time.sleep(1)
        for number in range(80):
            assert peer.expect_publish(1) == ("signals", bytes([97 + number % 26]) * 100000), f"publish {number} is another one"
        peer.send(scripted.ack(1, 80, multiple=1), pieces=1)
        peer.close()
    with Broker(script) as url:
        assert "over a hundred signals" in said(program("signals"), *address(url))


@test
def c_hears_while_it_sends():
    def script(peer):
        peer.open(frame_max=131072)
        peer.channel(1)
        peer.consume(1, "t")
        for tag in range(1, 25):
            peer.send(scripted.deliver(1, "t", tag, b"d" * (1 << 20)))
        for _ in range(24):
            assert peer.expect_publish(1)[0] == "q"
        peer.close()
    with Broker(script) as url:
        said(program("crossing"), *address(url))


@test
def c_tells_whose_the_next_message_is():
    many, rounds = 400, 3

    def script(peer):
        peer.open()
        peer.channel(1)
        for number in range(many):
            peer.consume(1, f"t{number}")
        numbers = [number for _ in range(rounds) for number in range(many)]
        for tag, number in enumerate(numbers, 1):
            peer.send(scripted.deliver(1, f"t{number}", tag, b"%d %d" % (number, (tag - 1) // many)))
        peer.send(scripted.method(1, 60, 30, scripted.short_text("t1") + b"\1"))
        peer.close()
    with Broker(script) as url:
        assert f"{many * rounds} messages of {many} consumers, 0 wrong" in said(program("next_of"), *address(url), many, rounds)


@test
def c_keeps_its_times_where_the_broker_does_not_read():
    count = []

    def script(peer):
        peer.open(frame_max=131072, heartbeat=2)
        peer.channel(1, confirms=True)
        for _ in range(20):
            time.sleep(0.4)
            peer.send(scripted.frame(8, 0, b""))
        while True:
            kind, _, payload = peer.frame()
            if payload[:4] == b"\x00\x3c\x00\x28":
                count.append(1)
                peer.send(scripted.ack(1, len(count)))
            elif kind == 1 and payload[:4] == b"\x00\x0a\x00\x32":
                peer.send(scripted.method(0, 10, 51))
                return
    with Broker(script) as url:
        told = said(program("unread"), *address(url), 4000)
        taken, acks = int(told.split()[0]), int(told.split()[2])
        assert taken == acks == len(count) and 10 < taken < 4000, (told, len(count))


@test
def c_loses_a_broker_that_is_silent_and_does_not_read():
    def script(peer):
        peer.open(frame_max=131072, heartbeat=1)
        peer.channel(1, confirms=True)
        time.sleep(6)
    start = time.monotonic()
    with Broker(script) as url:
        told = said(program("unread"), *address(url), 4000)
        assert "0 acks; ConnectionLost" in told and time.monotonic() - start < 20, told


@test
def c_is_used_by_one_thread_of_one_process():
    def script(peer):
        confirms(peer)
        for number, body in enumerate((b"first", b"moved", b"last"), 1):
            assert peer.expect_publish(1) == ("q", body)
            peer.send(scripted.ack(1, number))
        peer.close()
    with Broker(script) as url:
        said(program("elsewhere", more=["-pthread"]), *address(url))


@test
def c_says_that_a_jump_lost_the_connection():
    def script(peer):
        peer.open()
        peer.channel(1)
        try:
            peer.frame()
            raise AssertionError("bytes left after the jump")
        except HungUp:
            pass
    with Broker(script) as url:
        told = said(program("jump"), *address(url))
        assert "ConnectionLost" in told and "yes, open" in told, told


@test
def c_shows_the_brokers_last_words():
    text = b"NOT_FOUND - no queue '" + b"a" * 230 + b"'"

    def closes(code, text, klass, number):
        return struct.pack(">H", code) + scripted.short_text(text) + struct.pack(">HH", klass, number)

    def script(peer):
        peer.open(frame_max=8192)
        peer.channel(1)
        assert len(peer.expect(1, 50, 20)) > 3000
        peer.send(scripted.method(1, 50, 21))
        peer.expect(1, 85, 10)
        peer.send(scripted.method(1, 85, 11))
        peer.expect_publish(1)
        peer.expect(1, 50, 10)
        peer.send(scripted.method(1, 20, 40, closes(404, text, 50, 10)))
        peer.expect(1, 20, 41)
        peer.channel(2)
        peer.send(scripted.method(0, 10, 50, closes(320, b"CONNECTION_FORCED - bye \x1b[2J", 0, 0)))
        peer.expect(0, 10, 51)
    with Broker(script) as url:
        told = subprocess.run([program("last_words"), *address(url)], stdout=subprocess.PIPE, timeout=120, check=True).stdout
        lines = dict(line.split(b": ", 1) for line in told.splitlines())
        for name in (b"call", b"publish", b"refused", b"refused publish"):
            assert b"404 NOT_FOUND - no queue 'aaa" in lines[name] and b"a' (class 50, method 10)" in lines[name], told
        for name in (b"connection", b"later"):
            assert b"320 CONNECTION_FORCED - bye  [2J" in lines[name], told


@test
def c_ends_an_opening_in_its_time():
    drips = ((b"\1\0\0\xff\xff\xff\xff", b"x", 0.004), (b"\1\0\0\0\1\xff\0", b"x", 0.004), (b"", b"\x08\0\0\0\0\0\0\xce", 0.004),
             (b"\1\0\0\xff\xff\xff\xff", b"x" * 65536, 0), (b"", b"", 0.1))
    for head, piece, pause in drips:
        def script(peer, head=head, piece=piece, pause=pause):
            until = time.monotonic() + 10
            try:
                peer.send(head)
                while time.monotonic() < until:
                    peer.send(piece)
                    time.sleep(pause)
                    if not piece and not peer.sock.recv(64):
                        break
            except OSError:
                pass
        with Broker(script) as url:
            assert said(program("opening"), *address(url)).startswith("not open")


@test
def c_names_a_connection_and_says_the_mechanism_that_is_wanted():
    name = scripted.short_text("connection_name") + b"S" + scripted.long_text("w\u00f6rker".encode())
    for number, mechanism, offered in ((0, "PLAIN", b"PLAIN EXTERNAL"), (0, "AMQPLAIN", b"AMQPLAIN"), (1, "AMQPLAIN", b"PLAIN AMQPLAIN"), (2, "EXTERNAL", b"PLAIN EXTERNAL")):
        def script(peer, mechanism=mechanism, offered=offered):
            peer.open(mechanisms=offered, mechanism=mechanism, user=b"bob", password=b"secret-password", challenges=1)
            assert peer.pairs().endswith(b"lapin channels" + name), peer.pairs()
            peer.close()
        with Broker(script) as url:
            told = said(program("named"), *address(url), number, "w\u00f6rker")
            assert told == f"open by {('PLAIN', 'AMQPLAIN', 'EXTERNAL').index(mechanism)} with frames of 4096, told 21 octets, of which the first is 7\n", told

    def offers_plain(peer):
        peer._want(8)
        peer.send(scripted.method(0, 10, 10, b"\x00\x09" + scripted.long_text(b"") + scripted.long_text(b"PLAIN AMQPLAIN") + scripted.long_text(b"en_US")))
        try:
            peer.frame()
        except HungUp:
            return
        raise AssertionError("the client went on")
    with Broker(offers_plain) as url:
        assert "not open: the connection was not opened: code 403" in said(program("named"), *address(url), 2, "x")

    def hears_nothing(peer):
        try:
            peer._want(1)
        except HungUp:
            return
        raise AssertionError("something was written")
    with Broker(hears_nothing) as url:
        assert "properties can't be told" in said(program("named"), *address(url), 0, "x", "no table")


# What the instruments look at: all but those that measure time. (A jump leaves what it was about, and is no fault of theirs.)
WATCHED = [c_makes_each_call_as_the_standard_has_it, c_reads_and_writes_values, c_publishes_with_a_confirm, c_consumes_in_pieces,
           c_tells_a_cut_connection_and_garbage, c_gives_what_came_back_to_its_own_publish, c_is_used_by_one_thread_of_one_process,
           c_shows_the_brokers_last_words, c_names_a_connection_and_says_the_mechanism_that_is_wanted, c_answers_nothing_and_extremes]


@test
def c_is_clean_by_address_and_undefined_behaviour():
    flags = ["-fsanitize=address,undefined", "-fno-sanitize-recover=all"]
    source = f"{in_c_library.BIN}/clean.c"
    with open(source, "w", encoding="utf-8") as file:
        file.write("int main(void) { return 0; }\n")
    if subprocess.run([os.environ.get("CC", "cc"), *flags, "-o", f"{source}.out", source], stderr=subprocess.DEVNULL, check=False).returncode:
        print("address and undefined behaviour: not looked at, since the compiler's libraries for it aren't here")
        return
    with by(flags):
        for it in (*WATCHED, c_loses_nothing_to_signals, c_hears_while_it_sends):
            it()


@test
def c_is_clean_under_valgrind():
    if not shutil.which("valgrind"):
        print("valgrind: not looked at, since it isn't here")
        return
    with by(before=["valgrind", "-q", "--error-exitcode=9", "--leak-check=full", "--errors-for-leak-kinds=definite", "--show-leak-kinds=definite"]):
        for it in WATCHED:
            it()
