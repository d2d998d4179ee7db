"""What a mandatory publish costs in Python, beside a plain one: mandatory.py URL [MESSAGES]. The least of three rounds, by the window of publishes
without an outcome: all plain, all mandatory, and mandatory where each tenth comes back."""
import sys
import time

import lapin


def cost(url, messages, window, mandatory, share):
    """The microseconds of processor time a message."""
    with lapin.connect(url) as connection:
        channel, body = connection.channel(confirms=True), bytes(100)
        channel.queue_declare("bench")
        cpu, waiting = time.process_time(), []
        for number in range(messages):
            key = "nobody" if share and number % share == 0 else "bench"
            waiting.append(channel.publish("", key, body, mandatory=mandatory))
            if len(waiting) >= window:
                connection.turn()
                done = 0
                while done < len(waiting) and waiting[done].poll() is not None:
                    done += 1
                del waiting[:done]
        for confirm in waiting:
            confirm.wait()
        spent = (time.process_time() - cpu) / messages * 1e6
        channel.queue_purge("bench")
        return spent


def main(url, messages=15_000):
    for window in (100, 1000, 5000):
        kinds = (("plain", False, 0), ("mandatory", True, 0), ("each tenth to nobody", True, 10))
        told = [f"{name} {min(cost(url, int(messages), window, mandatory, share) for _ in range(3)):.1f} us" for name, mandatory, share in kinds]
        print(f"window {window}: {', '.join(told)}", flush=True)


if __name__ == "__main__":
    main(*sys.argv[1:])
