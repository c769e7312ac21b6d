"""Random scripts for `handle_calls`, with what the machine of `compare` answers to each line, and with which tasks are
woken: a task is woken when a listener that its poll left is told, and by nothing else."""
import sys
from pathlib import Path

sys.dont_write_bytecode = True
sys.path.insert(0, str(Path(__file__).resolve().parents[1] / "compare"))
import machine
from answers import answer_of_item, answer_of_received, answer_of_sent, answer_of_value
from channel import Channel

READS = {"capacity": "Capacity", "overflow": "Overflow", "await_active": "AwaitActive", "is_closed": "IsClosed",
         "is_empty": "IsEmpty", "is_full": "IsFull", "len": "Len", "receiver_count": "ReceiverCount",
         "inactive_receiver_count": "InactiveReceiverCount", "sender_count": "SenderCount"}
SEEN = ("capacity", "len", "receivers", "inactive", "senders", "overflow", "await_active", "is_empty", "is_full",
        "is_closed")
SETTINGS = {"set_capacity": "SetCapacity", "set_overflow": "SetOverflow", "set_await_active": "SetAwaitActive"}
TASKS = 4


class Script:
    """A channel as the machine has it, its handles by number, and the lines so far."""

    def __init__(self, random):
        """Opens a channel, with or without a handle that only makes futures."""
        self.random = random
        capacity = random.randint(1, 4)
        opening = random.choice(("open", "sends", "receives"))
        self.channel = Channel(capacity, 0, 0)
        self.lines = [f"{opening} {capacity}"]
        self.senders, self.receivers, self.inactive = [True], [0], []
        self.sends, self.makes_sends, self.maker, self.receive = [], opening == "sends", None, None
        self.owners, self.told = {}, set()
        # The tasks whose wakers a receiver, or a send, may have.
        self.wakers = {}
        # A task that was never polled is ready for its first poll.
        self.woken = [True] * TASKS
        self.message = 0
        if self.makes_sends:
            self.step("NewSender")
        if opening == "receives":
            self.maker = self.step("CloneReceiver", 0)[1][1]

    def step(self, *call):
        """Makes the call, memory never refused, and wakes the tasks of listeners that are told by it."""
        new_id = 0
        used = self.channel.places if call[0] == "BeginSend" else self.channel.cursors
        while new_id in used:
            new_id += 1
        reply, self.channel = machine.step(self.channel, call, machine.Choice(False, new_id, lambda msg: msg))
        lists = (self.channel.sends, self.channel.receives)
        told = {who for waiting in lists for who in waiting.ids[:waiting.told]}
        for who in told - self.told:
            self.woken[self.owners[who]] = True
        self.told = told
        return reply

    def polled(self, who, task, *call):
        """A poll for a task. Its reply."""
        owner = who[0] if isinstance(who, tuple) else ("send", who)
        self.forget(owner, task)
        self.wakers.setdefault(owner, set()).add(task)
        self.woken[task] = False
        self.told.discard(who)
        self.owners[who] = task
        return self.step(*call)

    def forget(self, owner, task=None):
        """A waker that is dropped wakes its task, and a receiver or a send may drop those that it has, when it leaves
        or another task polls: then it is not asked whether these are woken."""
        for other in self.wakers.get(owner, ()):
            if other != task and not self.woken[other]:
                self.woken[other] = None

    def line(self, text, answer):
        """A line, with its answer."""
        self.lines.append(f"{text} -> {answer}")

    def one_of(self, handles):
        """The number of a handle that is there, or none."""
        there = [number for number, handle in enumerate(handles) if handle is not None]
        return self.random.choice(there) if there else None

    def next_message(self):
        """A message that no other send has."""
        self.message += 1
        return self.message

    def setting(self, kind, number):
        """A call that every handle has."""
        method = self.random.choice((*READS, *SETTINGS, *SETTINGS, "close"))
        subject = f"{kind} {number} {method}"
        if method in READS:
            self.line(subject, answer_of_value(self.step(READS[method])[1]))
        elif method in SETTINGS:
            argument = self.random.randint(1, 5) if method == "set_capacity" else self.random.randint(0, 1)
            self.step(SETTINGS[method], argument if method == "set_capacity" else bool(argument))
            self.line(f"{subject} {argument}", "Done")
        elif self.random.random() < 0.2:
            self.line(subject, answer_of_value(self.step("Close")[1]))

    def made(self, text, handles, reply):
        """A line that makes a handle."""
        self.line(text, f"Made({len(handles)})")
        value = reply[1][1]
        handles.append(True if value == ("Unit",) else value)

    def by_sender(self):
        """A call on a sender."""
        number = self.one_of(self.senders)
        if number is None:
            return
        subject, choice = f"sender {number}", self.random.random()
        if choice < 0.4:
            msg = self.next_message()
            sent = self.step("TryBroadcast", msg)[1]
            self.line(f"{subject} try_broadcast {msg}", answer_of_sent(sent))
        elif choice < 0.6:
            msg = self.next_message()
            method = self.random.choice(("broadcast_timeout", "broadcast_blocking"))
            if method == "broadcast_timeout" or self.channel.sends_are_ready():
                sent = self.step("AttemptSend", msg)[1]
                answer = f"NotInTime({msg})" if sent[0] == "Wait" else answer_of_sent(sent[1])
                self.line(f"{subject} {method} {msg}", answer)
        elif choice < 0.68:
            msgs = [self.next_message() for _ in range(self.random.randint(0, 3))]
            sent = self.step("TryBroadcastAll", msgs)[1]
            answer = "Accepted" if sent[0] == "Ok" else f"All{sent[1][0]}({len(msgs)})"
            self.line(f"{subject} try_broadcast_all" + "".join(f" {msg}" for msg in msgs), answer)
        elif choice < 0.74:
            self.made(f"{subject} clone", self.senders, self.step("NewSender"))
        elif choice < 0.8:
            self.made(f"{subject} new_receiver", self.receivers, self.step("NewReceiver"))
        elif choice < 0.84:
            self.step("DropSender")
            self.senders[number] = None
            self.line(f"{subject} drop", "Done")
        else:
            self.setting("sender", number)

    def by_receiver(self):
        """A call on a receiver."""
        number = self.one_of(self.receivers)
        if number is None:
            return
        key, subject, choice = self.receivers[number], f"receiver {number}", self.random.random()
        if choice < 0.3:
            self.line(f"{subject} try_recv", answer_of_received(self.step("TryRecv", key)[1][1]))
        elif choice < 0.42:
            limit = self.random.randint(0, 1)
            before = self.channel
            answer = answer_of_received(self.step("TryRecv", key)[1][1])
            if self.random.random() < 0.5:
                self.line(f"{subject} recv_timeout {limit}", answer.replace("Empty", "Timeout"))
            elif answer != "Empty":
                self.line(f"{subject} recv_blocking", answer)
            else:
                self.channel = before
        elif choice < 0.78:
            self.poll(number, key)
        elif choice < 0.84:
            self.remake(number, key)
        else:
            self.setting("receiver", number)

    def poll(self, number, key):
        """A poll of a receiver, in a task."""
        task = self.random.randrange(TASKS)
        method = self.random.choice(("poll_recv", "poll_next", "poll_future"))
        text = f"receiver {number} {method} {task}"
        if method == "poll_future":
            polled = self.polled((key, "future"), task, "PollFuture", key)[1][1]
            self.step("EndFuture", key)
            answer = "Pending" if polled[0] == "Pending" else answer_of_received(polled[1])
        else:
            call = {"poll_recv": "PollRecv", "poll_next": "PollNext"}[method]
            polled = self.polled((key, "stream"), task, call, key)[1][1]
            answer = "Pending" if polled[0] == "Pending" else answer_of_item(polled[1])
        self.line(text, answer)

    def remake(self, number, key):
        """A receiver makes a handle, becomes one, or leaves."""
        method = self.random.choice(("clone", "new_receiver", "new_sender", "deactivate", "drop"))
        text = f"receiver {number} {method}"
        if method == "clone":
            self.made(text, self.receivers, self.step("CloneReceiver", key))
        elif method == "new_receiver":
            self.made(text, self.receivers, self.step("NewReceiver"))
        elif method == "new_sender":
            self.made(text, self.senders, self.step("NewSender"))
        else:
            self.forget(key)
            self.receivers[number] = None
            if method == "deactivate":
                self.made(text, self.inactive, self.step("Deactivate", key))
            else:
                self.step("DropReceiver", key)
                self.line(text, "Done")

    def by_inactive(self):
        """A call on an inactive receiver."""
        number = self.one_of(self.inactive)
        if number is None:
            return
        method = self.random.choice(("clone", "activate_cloned", "activate", "drop", "setting"))
        text = f"inactive {number} {method}"
        if method == "setting":
            self.setting("inactive", number)
        elif method == "clone":
            self.made(text, self.inactive, self.step("CloneInactive"))
        elif method == "activate_cloned":
            self.made(text, self.receivers, self.step("ActivateCloned"))
        elif method == "activate":
            self.inactive[number] = None
            self.made(text, self.receivers, self.step("Activate"))
        else:
            self.inactive[number] = None
            self.step("DropInactive")
            self.line(text, "Done")

    def by_send(self):
        """A call on a send that is held."""
        if not self.makes_sends:
            return
        choice, number = self.random.random(), self.one_of(self.sends)
        if choice < 0.3 or number is None:
            msg = self.next_message()
            method = self.random.choice(("begin", "begin_boxed"))
            self.line(f"send 0 {method} {msg}", f"Made({len(self.sends)})")
            self.sends.append((self.step("BeginSend")[1][1], msg))
            return
        place, msg = self.sends[number]
        if choice < 0.85 and place is not None:
            task = self.random.randrange(TASKS)
            waited = place in self.channel.sends.ids and place not in self.told
            sent = self.polled(place, task, "PollSend", place, msg)[1]
            if sent[0] == "Wait":
                self.line(f"send {number} poll {task}", "Pending")
            else:
                self.line(f"send {number} poll {task}", answer_of_sent(sent[1]))
                self.sends[number] = (None, msg)
                # It has the waker of its last poll dropped, if it wasn't told.
                if waited and not self.woken[task]:
                    self.woken[task] = None
        elif choice >= 0.85:
            if place is not None:
                self.forget(("send", place))
                self.step("EndSend", place)
            self.sends[number] = None
            self.line(f"send {number} drop", "Done")

    def by_receive(self):
        """A call on the receive that is held."""
        if self.maker is not None and self.receive is None:
            self.line("recv 0 begin", "Made(0)")
            self.receive, self.maker = self.maker, None
        elif self.receive is not None and self.random.random() < 0.95:
            task = self.random.randrange(TASKS)
            polled = self.polled((self.receive, "future"), task, "PollFuture", self.receive)[1][1]
            answer = "Pending" if polled[0] == "Pending" else answer_of_received(polled[1])
            self.line(f"recv 0 poll {task}", answer)
        elif self.receive is not None:
            self.step("EndFuture", self.receive)
            self.receive = None
            self.line("recv 0 drop", "Done")

    def task(self):
        """Whether a task is woken, if that is known."""
        task = self.random.randrange(TASKS)
        if self.woken[task] is not None:
            self.line(f"task {task} is_woken", answer_of_value(self.woken[task]))

    def all_handles(self):
        """What all handles see."""
        channel = self.channel
        handles = self.senders + self.receivers + self.inactive
        if all(handle is None for handle in handles):
            self.line("handles 0 seen", "Done")
            return
        values = (channel.capacity, len(channel.kept()), len(channel.cursors), channel.inactive, channel.senders,
                  channel.overflow, channel.await_active, not channel.kept(), channel.is_full(), channel.closed)
        fields = ", ".join(f"{name}: {str(value).lower()}" for name, value in zip(SEEN, values))
        self.line("handles 0 seen", f"All(Seen {{ {fields} }})")

    def turn(self):
        """Makes one call, or none."""
        choices = (self.by_sender, self.by_receiver, self.by_inactive, self.by_send, self.by_receive, self.task,
                   self.all_handles)
        self.random.choices(choices, (8, 9, 1, 3, 3, 5, 1))[0]()


def lines_of(random, count):
    """So many lines, or a few more, of channels one after the other."""
    lines = []
    while len(lines) < count:
        script = Script(random)
        for _ in range(random.randint(1, 150)):
            script.turn()
        lines += script.lines
    return lines
