"""What a confirmed publish costs in Python: publish.py lapin|pika|pika-async URL N SIZE WINDOW."""
import sys
import time


def told(name, n, acks, wall, cpu):
    print(f"{name}: {n} messages, {acks} acks, {(time.process_time() - cpu) / n * 1e6:.2f} us of processor time a message", flush=True)


def by_lapin(url, n, body, window):
    import lapin
    with lapin.connect(url) as connection:
        channel = connection.channel(confirms=True)
        channel.queue_declare("bench")
        wall, cpu, waiting, acks = time.perf_counter(), time.process_time(), [], 0
        for _ in range(n):
            waiting.append(channel.publish("", "bench", body))
            if len(waiting) >= window:
                connection.turn()
                done = 0
                while done < len(waiting) and (found := waiting[done].poll()) is not None:
                    acks, done = acks + bool(found), done + 1
                del waiting[:done]
        acks += sum(bool(confirm.wait()) for confirm in waiting)
        told("lapin in Python", n, acks, wall, cpu)
        channel.queue_purge("bench")


def by_pika(url, n, body, window):
    import pika
    connection = pika.BlockingConnection(pika.URLParameters(url))
    channel = connection.channel()
    channel.confirm_delivery()
    channel.queue_declare("bench")
    wall, cpu = time.perf_counter(), time.process_time()
    for _ in range(n):
        channel.basic_publish("", "bench", body)
    told("pika, blocking", n, n, wall, cpu)
    channel.queue_purge("bench")
    connection.close()


def by_pika_async(url, n, body, window):
    import pika
    state = {"sent": 0, "done": 0}

    def more(channel):
        while state["sent"] < n and state["sent"] - state["done"] < window:
            channel.basic_publish("", "bench", body)
            state["sent"] += 1

    def on_confirm(channel, frame):
        state["done"] = frame.method.delivery_tag if frame.method.multiple else state["done"] + 1
        if state["done"] >= n:
            told("pika, callbacks", n, state["done"], state["wall"], state["cpu"])
            channel.queue_purge("bench", callback=lambda _: connection.close())
        else:
            more(channel)

    def on_channel(channel):
        def begin(_):
            state.update(wall=time.perf_counter(), cpu=time.process_time())
            more(channel)
        channel.confirm_delivery(lambda frame: on_confirm(channel, frame), callback=lambda _: channel.queue_declare("bench", callback=begin))

    connection = pika.SelectConnection(pika.URLParameters(url), on_open_callback=lambda c: c.channel(on_open_callback=on_channel),
                                       on_close_callback=lambda c, _: c.ioloop.stop())
    connection.ioloop.start()


def main(name, url, n, size, window):
    run = {"lapin": by_lapin, "pika": by_pika, "pika-async": by_pika_async}
    run[name](url, int(n), bytes(int(size)), int(window))


if __name__ == "__main__":
    main(*sys.argv[1:])
