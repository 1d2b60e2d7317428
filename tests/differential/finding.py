"""After how many scripts each of the planted mistakes is found."""

import sys
from collections.abc import Iterator

from tests.differential.compare import Answer, Subject, reference
from tests.differential.generate import script
from tests.differential.planted import PLANTED, Planted
from tests.reference.whatif import in_deep_thread

MOST = 2_000


def planted_subject(name: str) -> Subject:
    """The reference with a mistake, in place of a program."""

    def answer(made: bytes) -> Answer:
        planted: Planted = PLANTED[name]()
        with planted:
            return reference(made)

    return answer


class Answers:
    """The reference's own answers to the scripts of a run, each found once."""

    def __init__(self, seed: int, most: int) -> None:
        self.seed = seed
        self.most = most
        self.known: list[tuple[bytes, Answer]] = []

    def __iter__(self) -> Iterator[tuple[bytes, Answer]]:
        for number in range(self.most):
            if number == len(self.known):
                made = script(self.seed, number)
                self.known.append((made, reference(made)))
            yield self.known[number]


def found_after(name: str, answers: Answers) -> int | None:
    """How many scripts it took until the mistake was found, or nothing where it wasn't."""
    subject = planted_subject(name)
    for number, (made, wanted) in enumerate(answers, 1):
        if subject(made) != wanted:
            return number
    return None


def main() -> None:
    """Writes the numbers for each seed among the words."""
    runs = [Answers(int(word), MOST) for word in sys.argv[1:] or ["7"]]
    for name in PLANTED:
        print(name, *(found_after(name, answers) or "not found" for answers in runs), sep=" | ", flush=True)


if __name__ == "__main__":
    in_deep_thread(main)
