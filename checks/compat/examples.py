"""The documentation examples of the original, as tests."""
import re
from typing import NamedTuple


class Example(NamedTuple):
    """A fenced block: its name as a test, the words after its fence, and its lines as compiled."""
    name: str
    words: set
    body: str

    def is_run(self):
        """Whether it is a whole piece of Rust that is to be run."""
        return self.words <= {"rust"}

    def makes_channel(self):
        return re.search(r"(?<![.\w])broadcast(::<.*>)?\(", self.body) is not None

    def test(self):
        return f"#[test]\nfn {self.name}() {{\n{self.body}\n}}\n"


def doc_lines(text):
    """The lines of a source file's doc comments; where other lines stand, empty ones."""
    for line in text.splitlines():
        comment = re.match(r"\s*//[/!](?!/) ?(.*)$", line)
        yield comment[1] if comment else ""


def compiled(line):
    """A line as rustdoc compiles it: `# ` only hides it from the page."""
    bare = line.lstrip()
    return bare.removeprefix("#").removeprefix(" ") if re.match(r"#( |$)", bare) else line


def of_lines(prefix, lines):
    start = None
    for number, line in enumerate(lines, 1):
        fence = re.match(r"\s*```(.*)$", line)
        if start is None and fence:
            start, words, body = number, {*re.findall(r"\w+", fence[1])}, []
        elif fence:
            yield Example(f"{prefix}_line_{start}", words, "\n".join(map(compiled, body)))
            start = None
        elif start is not None:
            body.append(line)


def of_original(lib, readme):
    """The examples of the two files, whose texts these are."""
    return [*of_lines("lib", doc_lines(lib)), *of_lines("readme", readme.splitlines())]
