"""Long refutations, made by rule, of the contradiction of large.py: of its inputs 2 and 3. A line is a clause, and one that
deletes has a d in front."""
from lib import refutations

# of three inputs the gates are 5 to 8: 2 and 3, 2 and not 3, not 2 and 3, neither; and 13 is the first new variable. 13 is 2
# and 3, 14 is not 2 and 3. By what 15 and 16 stand in, neither is so; then nothing else says it. 17 is 1, but not at once.
DEFINED = [[13, -2, -3], [-13, 2], [-13, 3], [14, 2, -3], [-14, -2], [-14, 3], [-3, 13, 14]]
DEFINED += [[15, -13], [-15, -13], [16, -14], [-16, -14], ["d", -3, 5, -2], ["d", 2, -3, 7], [17, 4], [17, -4]]
USED, BLOCKED = [[-13], [-14]], [[-17]]
# a lemma that is deleted at once
SHORT = [[2, 3], ["d", 3, 2]]
# 13 is 2 and 3 for a while, and 14 or 15 is 1
AROUND = [[13, -4], [14, -4], [15, -4]]
ROUND = [[13, -2, -3], [14, 15, 4], [14, 15], [2, 3], ["d", 15, 14], ["d", -3, 13, -2], ["d", 4, 15, 14], ["d", 3, 2]]


def spelled(lines, is_binary=False):
    """The lines as a text, or as a binary refutation."""
    found = [(refutations.DELETED, it[1:]) if it[:1] == ["d"] else (refutations.ADDED, it) for it in lines]
    if is_binary:
        return refutations.spelled_binary(found)
    words = {refutations.DELETED: "d ", refutations.ADDED: ""}
    return "".join(f"{words[how]}{' '.join(map(str, clause))} 0\n" for how, clause in found).encode()


def lemmas(count):
    """Lemmas of 2 or 3; what deletes them, and the clause by which they follow, of count + 4 inputs; and one of them again."""
    places = range(4, count + 4)
    gone = [["d", 3, at + 1, 2, at] for at in places]
    return [*([at, at + 1, 2, 3] for at in places), *gone, ["d", 3, 2, count + 9], gone[count // 2][1:]]


def definitions(count):
    """New variables, each of which is 0 where two inputs are; what deletes them; and a line that follows from one of them."""
    first, lines = count + 14, []
    for at in range(count):
        lines += [[first + at, at + 4], [first + at, at + 5], [-first - at, -at - 4, -at - 5]]
    gone = [["d", *it[::-1]] for it in lines]
    return [*lines, *gone, [count // 2 + 4, first + count // 2]]
