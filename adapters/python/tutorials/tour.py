"""What the package can do, once each: tour.py URL."""
import sys

import lapin

with lapin.connect(sys.argv[1]) as connection:
    channel = connection.channel(confirms=True)
    print("declared", channel.queue_declare("hello"))
    confirm = channel.publish("", "hello", b"Hello World!", content_type="text/plain", headers={"n": 1, "s": "x", "t": {"a": [True, None]}})
    print("outcome", confirm.wait())
    message = channel.get("hello")
    print("got", message.body, message.properties, message.routing_key, message.ack(), message.ack())
    big = bytes(range(256)) * 2000
    print("big", channel.publish("", "hello", big).wait())
    message = channel.get("hello")
    print("equal", message.body == big, message.ack())
    print("none", channel.get("hello"))
    outcome = channel.publish("", "nowhere", b"lost?", mandatory=True, message_id="7").wait()
    print("returned", outcome, bool(outcome), outcome.returned.body)
    try:
        channel.queue_declare("missing", passive=True)
    except lapin.CallFailed as error:
        print("failed", error, error.code)
    try:
        channel.publish("", "hello", b"x")
    except lapin.Refused as error:
        print("refused", error)
