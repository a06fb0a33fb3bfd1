"""What is reported, and the words for it."""


class Fault(Exception):
    """What is wrong, and in which line; the line is None where there is none."""

    def __init__(self, line, message):
        super().__init__(message)
        self.line, self.message = line, message


class Faults(Exception):
    """What is wrong with a text: at least one fault, in the order of the lines."""

    def __init__(self, faults):
        super().__init__(f"{len(faults)} faults")
        self.faults = in_order(faults)


class Unsure(Exception):
    """What cannot be judged, because it rests on a declaration with a fault; that one is reported, and this is not."""


def in_order(faults):
    """The faults in the order of their lines, each once."""
    known = {(fault.line or 0, fault.message): fault for fault in faults}
    return [known[key] for key in sorted(known, key=lambda key: key[0])]


def counted(number, word):
    return f"{number} {word}" if number == 1 else f"{number} {word}s"


def are(number):
    return f"{number} {'is' if number == 1 else 'are'}"


def listed(words):
    """The words with commas and 'and' between them."""
    return words[0] if len(words) == 1 else f"{', '.join(words[:-1])} and {words[-1]}"


def quoted(names):
    return listed([f"'{name}'" for name in names])
