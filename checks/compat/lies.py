#!/usr/bin/env python3
"""Plays `replay trace` wrongly. LIE is the name of a lie, TRUTHFUL the program that is asked.

A lie is a function of `ask`, which gives the program's line for a call, and of a call. It gives the
line that is written for the call.
"""
import os
import re
import subprocess
import sys


def no_lie(ask, call):
    return ask(call)


def a_receive_gives_a_later_message(ask, call):
    if not re.match(r"TryRecv|Poll(Future|Recv|Next)", call):
        return ask(call)
    kept = re.search(r"queue=\[(.*?)\]", ask("="))[1].split(",")
    answer = ask(call)
    got = re.search(r"\bgot (\d+)", answer)
    later = kept[kept.index(got[1]) + 1:] if got else []
    return answer.replace(got[0], f"got {later[0]}") if later else answer


def a_receive_finds_nothing(ask, call):
    return f"{call} -> empty" if call.startswith("TryRecv ") else ask(call)


def one_more_is_missed(ask, call):
    return re.sub(r"overflowed (\d+)", lambda count: f"overflowed {int(count[1]) + 1}", ask(call))


def a_receive_never_finds_it_closed(ask, call):
    return re.sub(r"^(TryRecv .*) closed$", r"\1 empty", ask(call))


def a_sending_future_finds_it_closed(ask, call):
    send = re.match(r"PollSend (\d+) (\d+)$", call)
    if not send:
        return ask(call)
    ask(f"EndSend {send[1]}")
    return f"{call} -> ready senderror {send[2]}"


def a_full_channel_loses_the_message(ask, call):
    return re.sub(r"-> full \d+$", "-> ok", ask(call))


def inactive_receivers_count_as_none(ask, call):
    return ask(call).replace("-> inactive", "-> closed")


def the_last_inactive_receiver_leaves_it_open(ask, call):
    is_last = call == "DropInactive" and ask("InactiveReceiverCount").endswith(" 1")
    return f"{call} -> -" if is_last else ask(call)


def a_smaller_capacity_drops_nothing(ask, call):
    return f"{call} -> ok" if call.startswith("SetCapacity ") else ask(call)


def a_clone_has_nothing_to_read(ask, call):
    if not call.startswith("CloneReceiver "):
        return ask(call)
    return ask("NewReceiver").replace("NewReceiver", call)


def a_dropped_message_is_not_handed_back(ask, call):
    return re.sub(r" dropped \d+$", "", ask(call))


def nobody_is_woken(ask, call):
    return re.sub(r"(W[SR]=\[.*?\])/\d+", r"\1/0", ask(call))


LIES = {
    lie.__name__.replace("_", " "): lie
    for lie in (
        a_receive_gives_a_later_message,
        a_receive_finds_nothing,
        one_more_is_missed,
        a_receive_never_finds_it_closed,
        a_sending_future_finds_it_closed,
        a_full_channel_loses_the_message,
        inactive_receivers_count_as_none,
        the_last_inactive_receiver_leaves_it_open,
        a_smaller_capacity_drops_nothing,
        a_clone_has_nothing_to_read,
        a_dropped_message_is_not_handed_back,
        nobody_is_woken,
    )
}


def main():
    lie = LIES.get(os.environ["LIE"], no_lie)
    program = subprocess.Popen(
        [os.environ["TRUTHFUL"], *sys.argv[1:]],
        stdin=subprocess.PIPE, stdout=subprocess.PIPE, text=True,
    )

    def ask(call):
        program.stdin.write(call + "\n")
        program.stdin.flush()
        return program.stdout.readline().rstrip("\n")

    for line in sys.stdin:
        print(lie(ask, line.rstrip("\n")), flush=True)
    program.stdin.close()
    return program.wait()


if __name__ == "__main__":
    sys.exit(main())
