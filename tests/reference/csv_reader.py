"""Records of a CSV text, read as the crate `csv` reads them with commas, double quotes and records of any length."""


def records(data: bytes) -> list[list[bytes]]:
    return Reader(data.removeprefix(b"\xef\xbb\xbf")).records()


class Reader:
    """Takes the bytes one after another. A line end is CR, LF or both; an empty line is no record."""

    def __init__(self, data: bytes) -> None:
        self.data = data
        self.at = 0

    def records(self) -> list[list[bytes]]:
        found: list[list[bytes]] = []
        while True:
            while self.at < len(self.data) and self.data[self.at] in b"\r\n":
                self.at += 1
            if self.at == len(self.data):
                return found
            found.append(self.record())

    def record(self) -> list[bytes]:
        fields = [self.field()]
        while self.at < len(self.data) and self.data[self.at] == ord(","):
            self.at += 1
            fields.append(self.field())
        return fields

    def field(self) -> bytes:
        """A field up to the comma or the line end that ends it; text behind a closing quote joins it."""
        quoted = self.quoted() if self.data[self.at : self.at + 1] == b'"' else b""
        start = self.at
        while self.at < len(self.data) and self.data[self.at] not in b",\r\n":
            self.at += 1
        return quoted + self.data[start : self.at]

    def quoted(self) -> bytes:
        """What stands between quotes, doubled ones once; an unclosed quote runs to the end."""
        parts: list[bytes] = []
        start = self.at + 1
        while True:
            end = self.data.find(b'"', start)
            if end < 0:
                self.at = len(self.data)
                return b'"'.join([*parts, self.data[start:]])
            parts.append(self.data[start:end])
            if self.data[end + 1 : end + 2] != b'"':
                self.at = end + 1
                return b'"'.join(parts)
            start = end + 2


def row(fields: list[str]) -> str:
    """A record as it is written, every field in quotes."""
    return ",".join('"' + field.replace('"', '""') + '"' for field in fields) + "\r\n"
