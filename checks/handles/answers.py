"""The machine's replies, in the words of the program `handle_calls`."""


def answer_of_value(value):
    """The answer to a call that only reads."""
    return f"Is({str(value).lower()})" if isinstance(value, bool) else f"Count({value})"


def answer_of_sent(sent):
    """The answer to a send that needn't wait."""
    if sent[0] == "Err":
        return {"SendError": "Refused"}.get(sent[1][0], sent[1][0]) + f"({sent[1][1]})"
    return "Accepted" if sent[1] == ("None",) else f"Dropped({sent[1][1]})"


def answer_of_received(received):
    """The answer to a receive."""
    if received[0] == "Ok":
        return f"Message({received[1]})"
    name = received[1][0]
    return {"Closed": "Ended", "Empty": "Empty"}.get(name) or f"Overflowed({received[1][1]})"


def answer_of_item(item):
    """The answer to an answered poll of a stream, with errors or without."""
    if item == ("None",):
        return "Ended"
    inner = item[1]
    return f"Message({inner[1]})" if inner[0] == "Pair" else answer_of_received(inner)
