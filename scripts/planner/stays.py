"""The readings of a list of chances of discharge, in parts of a whole: of those still there, as they are meant, and two wrong
ones."""


def of_those_there(shares: list[int], whole: int) -> list[int]:
    """The chances at each age of those still there, from the shares of all patients; the last one is sure."""
    there, chances = sum(shares), []
    for share in shares:
        chances.append((2 * share * whole + there) // (2 * there) if there else whole)
        there -= share
    return [*(min(it, whole - 1) for it in chances[:-1]), whole]


def steps(chances: list[int]) -> list[int]:
    """By how much each chance is above the one before."""
    return [later - earlier for earlier, later in zip([0, *chances], chances)]


def from_cumulative(chances: list[int], whole: int) -> list[int] | None:
    """The chances that are meant where these read as the shares who have left by an age; None where they don't.

    Shares that have left never fall, and the last step, of the few who stay longest, isn't the largest. Of two ages or
    fewer with a chance both readings are the same.
    """
    rises = steps(chances)
    if any(rise < 0 for rise in rises) or sum(rise > 0 for rise in rises) < 3 or rises[-1] > max(rises[:-1]):
        return None
    return of_those_there(rises, whole)


def from_shares(chances: list[int], whole: int) -> list[int] | None:
    """The chances that are meant where these read as shares of all patients; None where they don't.

    Shares of all sum to the whole: these do without the last chance, or the last one was raised to the whole so that it
    is accepted, and those before it sum to less and fall. """
    before = chances[:-1]
    while before and before[-1] == 0:
        before = before[:-1]
    told = [it for it in before if it]
    if len(told) < 2 or sum(told) > whole:
        return None
    if sum(told) == whole:
        return of_those_there(before, whole)
    if told[-1] >= max(told):
        return None
    return of_those_there([*chances[:-1], whole - sum(told)], whole)
