"""Whether what the page sent has the form that is wanted."""
from collections.abc import Collection


def checked(words: dict[str, object], kinds: dict[str, type], optional: Collection[str] = ()) -> bool:
    """Whether there is a value of each kind by its name, and nothing besides."""
    for name in words.keys() | kinds.keys():
        if name not in words:
            if name not in optional:
                return False
        elif name not in kinds or type(words[name]) is not kinds[name]:
            return False
    return True
