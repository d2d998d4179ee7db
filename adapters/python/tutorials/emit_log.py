"""RabbitMQ's tutorials 3 to 5, exchanges: emit_log.py URL KIND KEY WORD.. The kind is fanout, direct or topic."""
import sys

import lapin

url, kind, key, *words = sys.argv[1:]
with lapin.connect(url) as connection:
    channel = connection.channel(confirms=True)
    channel.exchange_declare(f"{kind}_logs", kind)
    outcome = channel.publish(f"{kind}_logs", key, " ".join(words).encode(), mandatory=True).wait()
    print(f" [x] Sent {key}: {outcome}")
