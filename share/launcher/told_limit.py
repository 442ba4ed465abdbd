"""What is said of a limit: how much an image had, and the option that allows more, where there is one."""

from scene import Scene, Told
from words import GREATEST_STEPS, RECORDED_WORDS


def told_limit(scene: Scene, image: int, line: int, what: str, count: int) -> Told:
    """Returns what is said of a limit to which an image came: `count` is how many words it has recorded; of the others
    it is one more than the image may have."""
    if what == "words":
        return _told_words(scene, image, line, count)
    text = scene.say("Limit", what, image=image, count=f"{count - 1:,}")
    if what != "statements":
        return Told(line, text, what, helps=(scene.say("Limit", f"{what} help"),), hint="Limit")
    more = min(2 * (count - 1), GREATEST_STEPS)
    case = "statements help" if more > count - 1 else "statements most"
    return Told(line, text, what, helps=(scene.say("Limit", case, more=more),), hint="Limit")


def _told_words(scene: Scene, image: int, line: int, count: int) -> Told:
    """Returns what is said of an image that has recorded as many words as its share, or some more."""
    text = scene.say("Limit", "words", image=image, count=f"{count:,}", share=f"{RECORDED_WORDS // scene.images:,}")
    helps = [scene.say("Limit", "words help")]
    if scene.images > 1:
        helps.insert(0, scene.say("Limit", "words share help", all=f"{RECORDED_WORDS:,}", images=scene.images))
    return Told(line, text, "words", helps=tuple(helps), hint="Limit")
