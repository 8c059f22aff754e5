"""The texts that are too long to stand in a file of cases. Each function makes one out of the numbers that it is given:
`input made NAME NUMBER ..` in a case stands for its bytes."""

# The most bytes that a text may have, and the most charges that a certificate may ask for.
MOST_BYTES = 16_777_216
MOST_CHARGES = 100_000_000

# What stands behind the text of `after_the_generators`, and behind that of `after_a_long_line`.
ENDS_OF_MANY = ["claim 0\nend\n", "generator z\n", "generator 0\n", "generator 9999999999999999999\n", "generator x \x07\n", "generators\n"]
ENDS_OF_LONG = [
    "line\npart 1 x^19 {197} x^19\n",
    "line\npart 1 x^20 {197} x^19\n",
    "line\npart 101 x^39 {197} 1\n",
    "line\npart 1 x^39 {197} 1 1\n",
    "line\npart 1 x^39 {198} 1\n",
    "line\npart 1 x^39 {197} 1 \x07\n",
    "line\npart 1 x^38 {197} 1\npart 1 1 [1] 1\nline\npart 1 x {198} 1\n",
    "line\npart 1 1 [1] 1\npart 1 x^38 {197} 1\nline\npart 1 x {198} 1\n",
    "line\npart 1 x^20 {197} x^19",
]


def line_feeds(count):
    """So many empty lines."""
    return b"\n" * count


def padded(text, more):
    """A text and a comment behind it, which have together so many bytes more than the most."""
    return text + b"#" * (MOST_BYTES + more - len(text))


def long_certificate(more):
    """A valid certificate of so many bytes more than the most."""
    return padded(b"certificate 1\nfield 101\nletters x y\nclaim 0\nend ", more)


def long_problem(more):
    """A problem with the claim 0, of so many bytes more than the most."""
    return padded(b"field 101\nletters x y\nbound degree 4\nclaim 0 ", more)


def head(letters, generators):
    """The lines of a text up to the generators: so many letters, and so many generators, which are the first letter."""
    names = "".join(f" x{letter}" for letter in range(letters))
    return f"field 7\nletters{names}\n" + "generator x0\n" * generators


def counted(letters, generators):
    """A certificate with so many letters and generators."""
    return f"certificate 1\n{head(letters, generators)}claim 0\nend\n".encode()


def counted_problem(letters, generators):
    """A problem with so many letters and generators; no signature has the degree 0."""
    return f"{head(letters, generators)}bound degree 0\nclaim x0\n".encode()


def generators_alone(form, count, feeds):
    """A text that ends in so many generators, with so many line feeds behind the last one: a certificate of this form, or a
    problem where that is 0."""
    first = f"certificate {form}\n" if form else ""
    return (first + head(1, count)).encode()[:-1] + b"\n" * feeds


def after_the_generators(row):
    """A certificate that has 1,000 generators, and then this row of ENDS_OF_MANY."""
    return ("certificate 2\nfield 101\nletters x\n" + "generator x\n" * 1000 + ENDS_OF_MANY[row]).encode()


def last_generator(number):
    """A certificate that has 1,000 generators, and a part that names one by this number."""
    text = "certificate 2\nfield 101\nletters x\n" + "generator x\n" * 1000
    return f"{text}claim x\nline\npart 1 1 [{number}] 1\nend\n".encode()


def doubling(lines):
    """A certificate of so many lines, each of which has twice the words of the one before. The first one is the claim."""
    text = "certificate 2\nfield 101\nletters x y\ngenerator x\nclaim x\nline\npart 1 1 [1] 1\n"
    for line in range(1, lines):
        text += f"line\npart 1 x {{{line}}} 1\npart 1 y {{{line}}} 1\n"
    return f"{text}end\n".encode()


def reach(more):
    """A certificate of 196 lines, of which the last one reaches so many letters more than 99,960: 255 of the generator,
    195 times 510, and these."""
    text = "certificate 2\nfield 2\nletters x\ngenerator x^255\nclaim 0\nline\npart 0 x^255 [1] x^255\n"
    for line in range(1, 195):
        text += f"line\npart 0 x^255 {{{line}}} x^255\n"
    return f"{text}line\npart 0 x^255 {{195}} x^{more}\nend\n".encode()


def after_a_long_line(row):
    """A certificate whose line 197 reaches 99,962 letters, and then this row of ENDS_OF_LONG. Line 1 reaches 2, as far as
    the longest word of the generator, and each further one 510 letters further."""
    text = "certificate 2\nfield 101\nletters x y\nweights 1 2\ngenerator y - x*x\nclaim 0\nline\npart 1 1 [1] 1\n"
    for line in range(1, 197):
        text += f"line\npart 1 x^255 {{{line}}} x^255\n"
    return (text + ENDS_OF_LONG[row]).encode()


def charged(form, more):
    """A certificate whose parts ask for so many charges more than the most. The first generator has the powers 0 to 254, which
    cost 32,640 and 255 for each letter of the sides. The second one has the word x, which costs 2 and 1 for each such letter."""
    powers = " + ".join(f"x^{power}" for power in range(255))
    keyword = "line\npart" if form == 2 else "term"
    text = f"certificate {form}\nfield 2\nletters x\ngenerator {powers}\ngenerator x\nclaim 0\n"
    left = MOST_CHARGES + more
    while left > 0:
        if left >= 32640 + 255 * 510 + 512:
            text += f"{keyword} 0 x^255 [1] x^255\n"
            left -= 32640 + 255 * 510
        else:
            letters = left - 2 if left <= 512 else 508
            text += f"{keyword} 0 x^{min(letters, 255)} [2] x^{max(letters - 255, 0)}\n"
            left -= 2 + letters
        keyword = "part" if form == 2 else "term"
    return f"{text}end\n".encode()
