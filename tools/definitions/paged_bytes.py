"""Long lists of bytes, as a guest's memory is one. Definitions take, drop and join lists; for a memory of megabytes each such
step would copy it. Here a list is a part of a row of pages that never change, so a part of it is the same pages with other
ends, and a join copies the row but no page that stays as it was."""

PAGE = 4096
SHORT = 64  # a part of so many bytes at most is a plain list


class PagedBytes:
    """The bytes from a start to a stop, counted from the front of the first page."""

    __slots__ = ("pages", "start", "stop")

    def __init__(self, pages, start, stop):
        self.pages = pages
        self.start = start
        self.stop = stop

    @staticmethod
    def zeros(count):
        return PagedBytes([bytes(PAGE)] * -(-count // PAGE), 0, count)

    @staticmethod
    def of(data):
        pages = [bytes(data[at : at + PAGE]) for at in range(0, len(data), PAGE)]
        if pages:
            pages[-1] = pages[-1].ljust(PAGE, b"\0")
        return PagedBytes(pages, 0, len(data))

    def __len__(self):
        return self.stop - self.start

    def __getitem__(self, index):
        if isinstance(index, slice):
            return self.part(*index.indices(len(self))[:2])
        if not 0 <= index < len(self):
            raise IndexError(index)
        at = self.start + index
        return self.pages[at // PAGE][at % PAGE]

    def part(self, first, last):
        last = max(first, last)
        if last - first <= SHORT:
            return list(self.between(self.start + first, self.start + last))
        return PagedBytes(self.pages, self.start + first, self.start + last)

    def taken(self, count):
        return self.part(0, min(count, len(self)))

    def dropped(self, count):
        """Stays a part of the pages, however short, since it is most often taken from or joined."""
        return PagedBytes(self.pages, self.start + min(count, len(self)), self.stop)

    def between(self, first, last):
        """The bytes between two places, counted from the front of the first page."""
        found, at = b"", first
        while at < last:
            page, within = divmod(at, PAGE)
            count = min(PAGE - within, last - at)
            found += self.pages[page][within : within + count]
            at += count
        return found

    def bytes(self):
        return b"".join(self.pages[self.start // PAGE : -(-self.stop // PAGE)])[self.start % PAGE :][: len(self)]

    def __iter__(self):
        return iter(self.bytes())

    def __eq__(self, other):
        if isinstance(other, PagedBytes) and self.pages is other.pages:
            return (self.start, self.stop) == (other.start, other.stop) or self.bytes() == other.bytes()
        return len(self) == len(other) and self.bytes() == bytes(other)

    def preceded_by(self, data):
        """These bytes with others in front, which stand in the same row of pages."""
        pages, at = list(self.pages), self.start - len(data)
        begin = at
        for page in range(at // PAGE, -(-self.start // PAGE)):
            low, high = max(at, page * PAGE), min(self.start, (page + 1) * PAGE)
            old = pages[page]
            pages[page] = old[: low - page * PAGE] + data[low - begin : high - begin] + old[high - page * PAGE :]
        return PagedBytes(pages, at, self.stop)

    def followed_by(self, other):
        """These bytes and then others that begin in their row where these end."""
        page, within = divmod(self.stop, PAGE)
        pages = self.pages[:page] + other.pages[page:]
        if within:
            pages[page] = self.pages[page][:within] + other.pages[page][within:]
        return PagedBytes(pages, self.start, other.stop)


def joined(left, right):
    """`left ++ right`, of plain lists or long ones."""
    if isinstance(left, list) and isinstance(right, list):
        return left + right
    if isinstance(left, PagedBytes) and isinstance(right, PagedBytes):
        if left.stop == right.start and len(left.pages) == len(right.pages):
            return left.followed_by(right)
    if isinstance(right, PagedBytes) and len(left) <= right.start:
        return right.preceded_by(bytes(left))
    if is_bytes(left) and is_bytes(right):
        return PagedBytes.of(bytes(left) + bytes(right))
    return list(left) + list(right)


def is_bytes(items):
    return isinstance(items, PagedBytes) or all(type(item) is int and 0 <= item < 256 for item in items)
