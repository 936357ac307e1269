#!/usr/bin/python3 -B
# Turns session cards with their answers into a log: credit and input answered Applied, and the messages. A file holds one card, or card
# after card, each ended by a line `----`; so do the answers. A card whose first line opens nothing has no list.
#
#     ./cards.py CARDS ANSWERS [CARDS ANSWERS...]
import sys


# The cards of a file, or their answers, each a list of lines.
def parts(name):
    part = []
    with open(name, "rb") as file:
        for line in file:
            line = line.removesuffix(b"\n")
            if line == b"----":
                yield part
                part = []
            else:
                part.append(line)
    if part:
        yield part


# The line of the log that a call and its answer come to, each parted at the commas, if any.
def item(call, answer):
    said = answer[1]
    if call[0] == b"credit" and said == b"Applied":
        return b"credit,%s,%s" % (call[3], call[4])
    if call[0] == b"input" and said == b"Applied":
        return b"input,%d" % (len(call[3]) // 2)
    if call[0] == b"message" and said in (b"Credit", b"Stdout", b"Stderr", b"End"):
        return b"%s,%s" % (said, answer[2])
    if call[0] == b"message" and said in (b"Started", b"InputClosed", b"Terminal"):
        return said
    return None


# The lines of a card's list; none where the card opens nothing.
def lines_of(card, answers):
    calls = [(call.split(b","), answer.split(b",")) for call, answer in zip(card, answers, strict=True)]
    if not calls or calls[0][1][1] != b"ok":
        return []
    limits = b",".join([b"limits"] + calls[0][0][4:10])
    return [limits] + [line for line in (item(*call) for call in calls[1:]) if line]


def main():
    for cards, answers in zip(sys.argv[1::2], sys.argv[2::2], strict=True):
        for card in zip(parts(cards), parts(answers), strict=True):
            sys.stdout.buffer.write(b"".join(line + b"\n" for line in lines_of(*card)))


if __name__ == "__main__":
    main()
