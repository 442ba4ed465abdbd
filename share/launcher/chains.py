"""The chain of waits of a stuck run, as the program's lines of --why tell it."""

from typing import NamedTuple, Optional, Sequence, Tuple

from ends import End

_CLOSES = ("post", "stopped", "cycle")


class Chain(NamedTuple):
    """Images each of which waits for the next one, and how that closes: the last one waits for a `post`, for an image
    that has `stopped`, which stands last among these, or for the image of the chain with which a `cycle` begins."""

    images: Tuple[int, ...]
    close: str
    again: int = 0

    @property
    def cycle(self) -> Tuple[int, ...]:
        """The images that wait for one another in a cycle, and the first of them once more; none where it has none."""
        return (*self.images[self.images.index(self.again) :], self.again) if self.close == "cycle" else ()


def chain_of(ends: Sequence[End]) -> Optional[Chain]:
    """Returns the chain, or nothing where the lines of an end tell none."""
    links = [it.number(0) for it in ends if it.kind == "why"]
    for it in ends:
        if it.kind in _CLOSES:
            image = it.number(0)
            return Chain(tuple(links), "cycle", image) if it.kind == "cycle" else Chain((*links, image), it.kind)
    return None
