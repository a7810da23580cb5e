"""A script's text as a person sees it: lines, columns, underlines. Not proved."""
import unicodedata

WIDEST = 100  # columns of a source line that are shown
MARGIN = "    "


def decoded(part):
    """Text of bytes, a character for each byte that is no UTF-8."""
    return part.decode("utf-8", "surrogateescape")


def printable(text):
    """The text with `?` for what would not show, or would do something to the screen."""
    return "".join(c if c == "\t" or c.isprintable() else "?" for c in text)


def columns(character):
    if unicodedata.combining(character):
        return 0
    return 2 if unicodedata.east_asian_width(character) in "WF" else 1


class Source:
    def __init__(self, text):
        self.text = text

    def bounds(self, at):
        """The start and the end of the line that a place is in."""
        start = max(self.text.rfind(b"\n", 0, at), self.text.rfind(b"\r", 0, at)) + 1
        if start == 0 and self.text.startswith(b"\xef\xbb\xbf"):
            start = 3
        ends = [end for end in (self.text.find(b"\n", at), self.text.find(b"\r", at)) if end >= 0]
        return start, min(ends, default=len(self.text))

    def column(self, at):
        """The column of a place, in characters from 1."""
        return len(decoded(self.text[self.bounds(at)[0] : at])) + 1

    def shown(self, start, end):
        """The text of a part, in one line."""
        return printable(decoded(self.text[start:end]).replace("\n", " ").replace("\r", " "))

    def underlined(self, start, end):
        """Two lines: the source line, and marks under the part from start to end of it; both cut to what fits round the part."""
        first, last = self.bounds(start)
        end = min(end, last)
        before, marked, after = (printable(decoded(self.text[a:b])) for a, b in ((first, start), (start, end), (end, last)))
        before, after = before.lstrip(), after.rstrip()
        if len(marked) > WIDEST:
            marked, after = marked[:WIDEST], "..."
        room = WIDEST - len(marked)
        if len(before) + len(after) > room:
            left = max(room // 2, room - len(after))
            if len(before) > left:
                before = "..." + before[len(before) - max(left - 3, 0) :]
            if len(after) > room - len(before):
                after = after[: max(room - len(before) - 3, 0)] + "..."
        blank = "".join("\t" if c == "\t" else " " * columns(c) for c in before)
        return [MARGIN + before + marked + after, MARGIN + blank + "^" * max(1, sum(map(columns, marked)))]
