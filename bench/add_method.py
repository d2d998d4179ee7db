#!/usr/bin/env python3
"""Adds a method with a reply in a copy of the tree, counts the files that this takes, and tries the program with it.

The method is made up: `queue.touch`, whose reply `queue.touch-ok` tells a count. The lines below are all that a hand writes; the rest
`bench/method_tables.py` makes of them. The count may not be above the one that "Where to add what" of docs/ARCHITECTURE.md says, whose list
has to name each of the files. Nothing is proved here: `rt try` runs the program over a few lines, and what it prints is compared.

    bench/add_method.py            ends with status 1 where the answer is wrong, or the files are more or others than that
"""
import os
import re
import shutil
import subprocess
import sys
import tempfile

TOP = os.path.dirname(os.path.dirname(os.path.abspath(__file__)))

# What is added, each behind a text that stands once in its file.
ADDED = [
    # the frame: its variant and its row
    ("crates/lapin_methods/src/queue.rt", """    /// The binding is gone.
    UnbindOk,
""", """    /// Asks how many messages a queue has, as if it were used.
    Touch {
        queue: ShortString,
        nowait: bool,
    },
    /// The queue has that many messages.
    TouchOk {
        message_count: u32,
    },
"""),
    ("crates/lapin_frames/src/queue.rt", """            UnbindOk 51 [] {} [] {},
""", """            Touch 60 [short] { queue: text } [nowait] {},
            TouchOk 61 [] { message_count: long } [] {},
"""),
    # who may send it
    ("crates/lapin_broker/specs/Frames.antt", """client_queue (queue.Unbind name from key arguments) = client.Ask kind.QueueUnbind
""", """client_queue (queue.Touch name nowait) = ask_unless nowait kind.QueueTouch
"""),
    ("crates/lapin_broker/specs/Frames.antt", """broker_queue queue.UnbindOk = broker.Reply kind.QueueUnbind
""", """broker_queue (queue.TouchOk messages) = broker.Reply kind.QueueTouch
"""),
    # the call with its marks
    ("crates/lapin_methods/src/options.rt", """    /// Whether it is deleted only where it holds no message.
    pub if_empty: bool,
    /// Whether the broker sends no answer.
    pub nowait: bool,
}
""", """
/// The marks of `queue.touch`.
#[derive(Clone, Copy, Debug, Default, PartialEq, Eq)]
pub struct QueueTouchOptions {
    /// Whether the broker sends no answer.
    pub nowait: bool,
}
"""),
    ("crates/lapin_types/src/call.rt", """    QueuePurgeOptions""", """, QueueTouchOptions"""),
    ("crates/lapin_types/src/call.rt", """    /// Takes a queue's binding to an exchange away (`queue.unbind`).
    QueueUnbind {
        /// The queue that got the messages.
        queue: ShortString,
        /// The exchange that they came from.
        exchange: ShortString,
        /// The routing key.
        routing_key: ShortString,
        /// Further arguments.
        arguments: FieldTable,
    },
""", """    /// Asks how many messages a queue has (`queue.touch`).
    QueueTouch {
        /// Its name.
        queue: ShortString,
        /// The marks of the method.
        options: QueueTouchOptions,
    },
"""),
    ("crates/lapin_types/src/call.rt", """            } => queue::copied_queue_unbind(queue, exchange, routing_key, arguments, alloc),
""", """            Call::QueueTouch { queue, options } => queue::copied_queue_touch(queue, options, alloc),
"""),
    # what the call does, and what its reply says
    ("crates/lapin_rules/specs/Calls.antt", """asked (call.QueueUnbind name from key more) = awaiting (method.Queue (queue.Unbind name from key more)) (reply.QueueUnbindOk name from key more)
""", """asked (call.QueueTouch name o) = unless_nowait (method.Queue (queue.Touch name o.nowait)) o.nowait reply.QueueTouchOk (answer.Count 0)
"""),
    ("crates/lapin_rules/src/calls/queue.rt", """    QueueDeleteOptions, QueueMethod, QueuePurgeOptions, """, """QueueTouchOptions, """),
    ("crates/lapin_rules/src/calls/queue.rt", """    unless_nowait(method, nowait, Reply::QueuePurgeOk, Answer::Count(0))
}
""", """
pub(crate) fn touch(queue: ShortString, options: QueueTouchOptions) -> Asked
    ensures { result ≡ asked (call.QueueTouch queue options) }
{
    let nowait = options.nowait;
    let method = Method::Queue(QueueMethod::Touch { queue, nowait });
    unless_nowait(method, nowait, Reply::QueueTouchOk, Answer::Count(0))
}
"""),
    ("crates/lapin_rules/specs/Incoming.antt", """incoming_method c (method.Queue queue.UnbindOk) = incoming.Reply c reply_kind.QueueUnbindOk answer.Done
""", """incoming_method c (method.Queue (queue.TouchOk messages)) = incoming.Reply c reply_kind.QueueTouchOk (answer.Count messages)
"""),
    # the call of a channel
    ("crates/lapin_session/src/queue.rt", """    QueuePurgeOptions, """, """QueueTouchOptions, """),
    ("crates/lapin_session/src/queue.rt", """        let call = Call::QueuePurge { queue, options };
        session.call(alloc, self.id, call)
    }
""", """
    /// Asks how many messages a queue has (`queue.touch`). The ticket is answered with their `Count` at the broker's `queue.touch-ok`,
    /// with `nowait` at once with 0.
    ///
    /// # Errors
    /// `InvalidChannelState` where the channel is not open, `NumbersUsedUp` where the next ticket would pass the greatest
    /// `u64`, `NoMemory`. Nothing changes then.
    pub fn queue_touch(
        &self,
        alloc: Global,
        session: &mut Session,
        queue: ShortString,
        options: QueueTouchOptions,
    ) -> Result<Ticket, Error>
        ensures told { TicketTold result (told_by session.old (CallEvent self.now.id (call.QueueTouch queue options))) }
        ensures ok { OnOk result (session.new ≡ next session.old (CallEvent self.now.id (call.QueueTouch queue options))) }
        ensures err { OnErr result (session.new ≡ session.old) }
        ensures cause { CallCause result self.now.id (call.QueueTouch queue options) session.old.wire }
    {
        let call = Call::QueueTouch { queue, options };
        session.call(alloc, self.id, call)
    }
"""),
]

# What the program is asked, a line each with its answer behind an arrow: what a session does, by the lines of `queue.purge` in the tests, and
# when the free broker may send the reply: once it read the request, and once alone.
ASKED = {
    "session": """call 1 channel.open -> ticket 1
next 1 -> frame method 1 channel.open
recv method 1 channel.open-ok -> received
call 1 queue.touch x71 0 -> ticket 2
next 1 -> frame method 1 queue.touch x71 0
ticket 2 -> pending
recv method 1 queue.touch-ok 4294967295 -> received
ticket 2 -> answer count 4294967295
call 1 queue.touch x72 1 -> ticket 3
ticket 3 -> answer count 0
next 1 -> frame method 1 queue.touch x72 1
recv method 1 queue.touch-ok 1 -> refused UnexpectedFrame 50 61
""",
    "joined": """client call 1 channel.open -> ticket 1
client next 1 -> frame method 1 channel.open
read -> read
send method 1 channel.open-ok -> sent
deliver -> received
client call 1 queue.touch x71 0 -> ticket 2
client next 1 -> frame method 1 queue.touch x71 0
send method 1 queue.touch-ok 7 -> notlawful
read -> read
send method 1 queue.purge-ok 7 -> notlawful
send method 1 queue.touch-ok 7 -> sent
send method 1 queue.touch-ok 7 -> notlawful
deliver -> received
client ticket 2 -> answer count 7
""",
}


def said():
    """The files of "Where to add what" for a method with a reply, and the number that it tells."""
    text = open(f"{TOP}/docs/ARCHITECTURE.md", encoding="utf-8").read()
    part = re.search(r"## Where to add what\n(.*?)\n- \*\*An event", text, re.S)[1]
    number = re.search(r"\*\*A method with a reply\*\* is (\d+) files", part)
    return int(number[1]), set(re.findall(r"`(crates/[\w/.]+)`", part))


def add(room):
    """Adds the lines, and gives the files that they stand in."""
    for path, behind, text in ADDED:
        file = f"{room}/{path}"
        old = open(file, encoding="utf-8").read()
        if old.count(behind) != 1:
            sys.exit(f"add_method: {path} has {old.count(behind)} times, and once is wanted:\n{behind}")
        open(file, "w", encoding="utf-8").write(old.replace(behind, behind + text))
    return {path for path, _, _ in ADDED}


def made(room):
    """Has the rest made, and gives the files that it wrote."""
    ran = subprocess.run([f"{room}/bench/method_tables.py"], stdout=subprocess.PIPE, text=True)
    if ran.returncode or subprocess.run([f"{room}/bench/method_tables.py", "--check"]).returncode:
        sys.exit(f"add_method: bench/method_tables.py did not make the rest:\n{ran.stdout}")
    return set(re.findall(r"^(\S+): written$", ran.stdout, re.M))


def answers(room, command):
    """Whether the program answers each line as it has to."""
    lines = [line.split(" -> ") for line in ASKED[command].splitlines()]
    given = "frame_max 4096\n" + "".join(line + "\n" for line, _ in lines)
    ran = subprocess.run(["rt", "try", "--", command], cwd=f"{room}/crates/lapin_run", input=given, stdout=subprocess.PIPE, stderr=subprocess.PIPE, text=True)
    told = ran.stdout.splitlines()
    for at, (line, answer) in enumerate(lines):
        if at >= len(told) or told[at] != answer:
            print(f"{command}: `{line}` is answered by `{told[at] if at < len(told) else 'nothing'}`, not by `{answer}`\n{ran.stderr[-3000:]}")
            return False
    print(f"{command}: {len(lines)} lines are answered as they have to be", flush=True)
    return True


def main():
    count, named = said()
    with tempfile.TemporaryDirectory(prefix="add-method-") as room:
        shutil.copytree(TOP, room, ignore=shutil.ignore_patterns("out", ".git", "__pycache__"), dirs_exist_ok=True)
        # The kit looks for a crate's root no higher than the folder of a repository.
        subprocess.run(["git", "init", "-q", room], check=True)
        files, rest = add(room), made(room)
        print("\n".join(sorted(files)))
        proofs = [sum("/proofs/" in path for path in some) for some in (files, rest)]
        print(f"{len(files)} files by hand, {proofs[0]} of them proofs; {len(rest - files)} more are made, {proofs[1]} of them proofs", flush=True)
        wrong = files != named or len(files) > count or proofs[0] > 0
        if wrong:
            print(f"docs/ARCHITECTURE.md says {count} files and no proof; it or the list lacks {' '.join(sorted(files ^ named)) or 'none'}")
        right = [answers(room, command) for command in ASKED]
    return 1 if wrong or not all(right) else 0


if __name__ == "__main__":
    sys.exit(main())
