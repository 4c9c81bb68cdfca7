"""Alters bytes and words at random: what may come to a program that reads whatever it is given."""
import random, re

# Numbers at which something changes, and their neighbours.
LIMITS = sorted({n + d for n in (0, 1, 2, 8, 16, 32, 64, 1000, 1024, 65536, 2**20, 2**22, 10**6, 10**7, 2**31, 2**32, 2**50, 2**53,
                                 2**62, 2**63, 2**64, 10**19) for d in (-1, 0, 1)} - {-1})
BYTES = b"\x00\n\r\t :#-+.,0159aAzZ_\x7f\x80\xc3\xff"


def number(rng):
    """A number at a limit, now and then written in an odd way."""
    word = b"%d" % rng.choice(LIMITS)
    return rng.choice([word] * 8 + [b"0" * rng.randrange(1, 25) + word, b"-" + word, b"+" + word, word + b".0", word + b"e3", b"0x10", b""])


def name(rng):
    return rng.choice([b"a", b"x", b"-", b"_", b"a" * 32, b"a" * 33, b"1a", b"a,b", b"a:", b":", b"\xc3\xa9", b"end", b"table", b"var", b"A"])


def flipped(rng, data):
    at = rng.randrange(len(data))
    return data[:at] + bytes([data[at] ^ 1 << rng.randrange(8)]) + data[at + 1:]


def replaced(rng, data):
    at = rng.randrange(len(data))
    return data[:at] + bytes([rng.choice(BYTES)]) + data[at + 1:]


def put_in(rng, data):
    at = rng.randrange(len(data) + 1)
    return data[:at] + bytes(rng.choice(BYTES) for _ in range(rng.choice((1, 1, 2, 40)))) + data[at:]


def cut(rng, data):
    return data[:rng.randrange(len(data))]


def left_out(rng, data):
    at = rng.randrange(len(data))
    return data[:at] + data[at + rng.choice((1, 1, 2, 10, 100)):]


def doubled(rng, data):
    first = rng.randrange(len(data))
    last = min(len(data), first + rng.choice((1, 1, 5, 50)))
    return data[:last] + data[first:]


def by_lines(change):
    """An alteration of the list of lines, each with its end."""
    def altered(rng, data):
        lines = data.splitlines(keepends=True)
        change(rng, lines)
        return b"".join(lines)
    return altered


def exchange(rng, lines):
    one, other = rng.randrange(len(lines)), rng.randrange(len(lines))
    lines[one], lines[other] = lines[other], lines[one]


def double(rng, lines):
    lines.insert(rng.randrange(len(lines) + 1), rng.choice(lines))


def leave_out(rng, lines):
    del lines[rng.randrange(len(lines))]


def other_ends(rng, lines):
    at = rng.randrange(len(lines))
    lines[at] = lines[at].rstrip(b"\r\n") + rng.choice((b"\r\n", b"\n\n", b" \n", b"\t# a\n", b"", b"\r"))


def by_words(change):
    """An alteration of the words; what stands between them stays."""
    def altered(rng, data):
        parts = re.split(rb"([ \t\r\n]+)", data)
        places = [at for at in range(0, len(parts), 2) if parts[at]]
        if places:
            change(rng, parts, places)
        return b"".join(parts)
    return altered


def exchange_words(rng, parts, places):
    one, other = rng.choice(places), rng.choice(places)
    parts[one], parts[other] = parts[other], parts[one]


def copy_word(rng, parts, places):
    parts[rng.choice(places)] = parts[rng.choice(places)]


def double_word(rng, parts, places):
    at = rng.choice(places)
    parts[at] += b" " + parts[at]


def leave_out_word(rng, parts, places):
    parts[rng.choice(places)] = b""


def other_number(rng, parts, places):
    numbers = [at for at in places if parts[at].isdigit()] or places
    parts[rng.choice(numbers)] = number(rng)


def near_number(rng, parts, places):
    numbers = [at for at in places if parts[at].isdigit() and len(parts[at]) < 30]
    if numbers:
        at = rng.choice(numbers)
        parts[at] = b"%d" % max(0, int(parts[at]) + rng.choice((-1, 1)))


def other_name(rng, parts, places):
    parts[rng.choice(places)] = name(rng)


def exchange_numbers(rng, parts, places):
    numbers = [at for at in places if parts[at].isdigit()]
    if len(numbers) > 1:
        one, other = rng.sample(numbers, 2)
        parts[one], parts[other] = parts[other], parts[one]


def exchange_names(rng, parts, places):
    names = [at for at in places if re.fullmatch(rb"[a-z]\w*", parts[at]) and parts[at] not in KEPT]
    if len(names) > 1:
        one, other = rng.sample(names, 2)
        parts[one], parts[other] = parts[other], parts[one]


def exchange_last(rng, lines):
    """Two of the last lines but the very last, which are those of a certificate."""
    if len(lines) > 12:
        one, other = rng.randrange(10, len(lines) - 1), rng.randrange(10, len(lines) - 1)
        lines[one], lines[other] = lines[other], lines[one]


def leave_out_last(rng, lines):
    if len(lines) > 12:
        del lines[rng.randrange(10, len(lines) - 1)]


def double_last(rng, lines):
    if len(lines) > 12:
        at = rng.randrange(10, len(lines) - 1)
        lines.insert(at, lines[at])


KEPT = set(b"status method goal error deliveries cost lower upper value certificate util event end solved spent dpop adopt tables log min max".split())
OF_BYTES = [flipped, replaced, put_in, cut, left_out, doubled]
OF_LINES = [by_lines(it) for it in (exchange, double, leave_out, other_ends)]
OF_WORDS = [by_words(it) for it in (exchange_words, copy_word, double_word, leave_out_word, other_number, near_number, near_number, other_name)]


def altered(rng, data):
    """The bytes, altered once, or up to four times."""
    for _ in range(rng.choice((1, 1, 1, 1, 2, 2, 3, 4))):
        if data:
            data = rng.choice(rng.choice((OF_BYTES, OF_LINES, OF_WORDS, OF_WORDS)))(rng, data)
    return data


OF_REPORTS = [by_words(it) for it in (near_number, near_number, near_number, exchange_numbers, exchange_names)]
OF_REPORTS += [by_lines(it) for it in (exchange_last, leave_out_last, double_last)]


def altered_in_form(rng, data):
    """A report, altered once to three times so that most often it still has a report's form."""
    for _ in range(rng.choice((1, 1, 2, 3))):
        data = rng.choice(OF_REPORTS)(rng, data)
    return data


def altered_words(rng, words):
    """A list of words, altered once or twice."""
    words = list(words)
    for _ in range(rng.choice((1, 1, 2))):
        if not words:
            break
        at = rng.randrange(len(words))
        kind = rng.randrange(7)
        if kind == 0:
            del words[at]
        elif kind == 1:
            words.insert(at, rng.choice(words))
        elif kind == 2:
            other = rng.randrange(len(words))
            words[at], words[other] = words[other], words[at]
        elif kind in (3, 4):
            words[at] = number(rng)
        elif kind == 5:
            words[at] = altered(rng, words[at]).replace(b"\0", b"")
        else:
            words[at] = rng.choice([b"", b"--", b"--help", b"solve", b"yes", b"auto", name(rng)])
    return words


def near(rng, low, high):
    """A number of this range, or one beside its ends."""
    return b"%d" % rng.choice((max(0, low - 1), low, high, high + 1, rng.randint(low, high), rng.randint(low, min(high, low + 5))))
