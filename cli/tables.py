"""Random texts in TOML: settings, values for them, and tables of every form that TOML has."""
import random

FIELDS = ("address", "min", "max", "default")
NAMES = ["volume", "tone", "gain", "a", "b_2", "brightness", "left.right", "x" * 32, "serial_number", "z9"]


def random_names(dice):
    return dice.sample(NAMES, dice.randrange(1, len(NAMES)))


def spelled(dice, number):
    """A whole number, in one of its spellings."""
    kinds = [str(number)] * 6 + [f"0x{number:x}", f"0o{number:o}", f"0b{number:b}", f"+{number}", f"{number:_}"]
    return dice.choice(kinds) if number >= 0 else str(number)


def key(dice, name):
    """A key, bare or quoted."""
    is_bare = all(letter.isalnum() or letter in "_-" for letter in name) and name
    return name if is_bare and dice.random() < 0.8 else dice.choice([f'"{name}"', f"'{name}'"])


def field_values(dice, address):
    low = dice.choice([0, 0, 1, dice.randrange(1000)])
    high = low + dice.choice([0, 1, 100, 2 ** 31])
    default = dice.randrange(low, high + 1)
    numbers = dict(zip(FIELDS, (address, low, high, default)))
    if dice.random() < 0.03:
        numbers[dice.choice(FIELDS)] = dice.choice([-1, 0, 65534, 65535, 2 ** 32 - 1, 2 ** 32, 2 ** 63 - 1])
    if dice.random() < 0.02:
        del numbers[dice.choice(FIELDS)]
    if dice.random() < 0.02:
        numbers["other"] = 1
    return numbers


def settings(dice, names, addresses):
    """A file of settings, mostly a right one."""
    lines = []
    chosen = dice.sample(addresses, min(len(addresses), len(names)))
    for name, address in zip(names, chosen):
        numbers = list(field_values(dice, dice.choice(chosen) if dice.random() < 0.02 else address).items())
        dice.shuffle(numbers)
        pairs = [f"{key(dice, field)} = {spelled(dice, number)}" for field, number in numbers]
        if dice.random() < 0.8:
            lines += [f"[{key(dice, name)}]" + dice.choice(["", " # a comment"])] + pairs + [""]
        else:
            lines.insert(0, f"{key(dice, name)} = {{ {', '.join(pairs)} }}")
    return "".join(f"{line}\n" for line in lines).encode()


def values(dice, names):
    """A file of values, mostly for settings that there are."""
    lines = [f"{key(dice, name)} = {spelled(dice, dice.choice([0, 1, 5, 50, 1000, dice.randrange(2 ** 32)]))}"
             for name in dice.sample(names, dice.randrange(len(names) + 1))]
    if dice.random() < 0.05:
        lines.append(dice.choice(["other = 1", "volume = -1", "tone = 1.5", "gain = true", 'a = "1"', "[b]", "z9 = [1]"]))
    return "".join(f"{line}\n" for line in lines).encode()


class Writer:
    """Writes random values of every form, and tells which forms of TOML 1.1 it used."""

    def __init__(self, dice, is_new):
        self.dice, self.is_new, self.new = dice, is_new, set()

    def take(self, name, chance):
        """Whether a form of TOML 1.1 is used here."""
        if self.is_new and self.dice.random() < chance:
            self.new.add(name)
            return True
        return False

    def blank(self):
        return self.dice.choice(["", "", " ", "\t", "  "])

    def letters(self, plain):
        dice = self.dice
        return "".join(dice.choice(plain) for _ in range(dice.randrange(6)))

    def string(self):
        dice = self.dice
        kind = dice.randrange(6)
        if kind == 0:
            return "'" + self.letters("ab\"\\#[=é ") + "'"
        if kind == 1:
            return "'''" + dice.choice(["", "\n"]) + self.letters("ab\"\\#[=é \n") + "'''"
        parts = ["a", "é", "#", "'", "\\n", "\\\\", "\\\"", "\\t", "\\u00e9", "\\U0001F600", "[", "=", "\\b", "\\f", "\\r"]
        if self.take("\\e", 0.1):
            parts += ["\\e"] * 5
        if self.take("\\x", 0.1):
            parts += ["\\x41"] * 5
        text = "".join(dice.choice(parts) for _ in range(dice.randrange(7)))
        if kind == 2:
            return '"""' + dice.choice(["", "\n", "\r\n"]) + text + dice.choice(["", "\n", '"', '""', "\\\n  b"]) + '"""'
        return f'"{text}"'

    def date(self):
        dice = self.dice
        day = f"{dice.randrange(1, 10000):04}-{dice.randrange(1, 13):02}-{dice.randrange(1, 29):02}"
        time = f"{dice.randrange(24):02}:{dice.randrange(60):02}"
        if not self.take("no seconds", 0.1):
            time += f":{dice.randrange(60):02}" + dice.choice(["", ".5", ".123456", ".123456789012"])
        offset = dice.choice(["", "Z", "z", "+01:30", "-00:00"])
        return dice.choice([day, time, day + dice.choice("Tt ") + time + offset])

    def scalar(self):
        dice = self.dice
        integer = spelled(dice, dice.choice([0, 1, 7, 1000, -1, -17, 2 ** 63 - 1, -2 ** 63, dice.randrange(2 ** 32)]))
        real = dice.choice(["1.5", "-0.0", "+1.25", "1e3", "1.5E-3", "6.02e+23", "inf", "-inf", "nan", "+nan", "1_0.0_1", "0e0"])
        return dice.choice([integer, integer, real, dice.choice(["true", "false"]), self.string(), self.string(), self.date()])

    def array(self, depth):
        dice = self.dice
        gap = dice.choice([" ", "\n", "\r\n", "\n# one\n"])
        items = [self.value(depth - 1) for _ in range(dice.randrange(4))]
        return "[" + gap + f",{gap}".join(items) + dice.choice(["", gap, f"{gap},{gap}" if items else gap]) + "]"

    def inline(self, depth):
        dice = self.dice
        names = dice.sample(["a", "b", "c.d", "c.e", '"f"', "g"], dice.randrange(4))
        gap = "\n" if self.take("a line end in an inline table", 0.1) else self.blank()
        pairs = [f"{name}{self.blank()}={self.blank()}{self.value(depth - 1)}" for name in names]
        end = "," if pairs and self.take("a comma behind the last of an inline table", 0.1) else ""
        return "{" + gap + f"{self.blank()},{gap}".join(pairs) + end + gap + "}"

    def value(self, depth):
        fate = self.dice.random()
        if depth == 0 or fate < 0.6:
            return self.scalar()
        return self.array(depth) if fate < 0.8 else self.inline(depth)

    def document(self):
        """A document of tables that don't stand twice."""
        dice = self.dice
        end = dice.choice(["\n", "\n", "\r\n"])
        lines = [f"{name} = {self.value(3)}" for name in dice.sample(["k", "l", '"m n"', "o.p", "o.q", "'r'"], dice.randrange(4))]
        for name in dice.sample(["s", "t", "t.u", "v.w", '"x y"', "z . 'a'"], dice.randrange(4)):
            lines += [dice.choice(["", "# é", "\t"]), f"{self.blank()}[{self.blank()}{name}{self.blank()}] # end"]
            lines += [f"{key(dice, inner)} = {self.value(2)}" for inner in dice.sample("bcdef", dice.randrange(3))]
        for _ in range(dice.choice([0, 0, 2])):
            lines += ["[[many]]", f"a = {self.value(1)}"]
        return end.join(lines) + dice.choice(["", end])

# Dates and times of which an older library takes or refuses others. No setting has one, so both give status 3.
DATES = ["a = 2021-02-30", "a = 2021-02-29", "a = 2021-04-31", "a = 24:00:00", "a = 23:59:60", "a = 2021-01-01T00:00:00+24:00",
         "a = 2021-01-01T00:00:00+00:60"]


def edges():
    """Texts at the limits of TOML: how deep values and keys may go, and what looks so and is none."""
    texts = []
    for count in (78, 79, 80, 81, 82, 30000):
        dots = ".a" * (count - 1)
        texts += [f"a = {'[' * count}{']' * count}", f"a = {'[' * count}1{']' * count}", f"a = {'{a=' * count}1{'}' * count}",
                  f"a{dots} = 1", f"[a{dots}]", f"a = {{ a{dots} = 1 }}", f"a = [{{ a{dots} = 1 }}]",
                  f"# {'[' * count}{dots}", f"a = '{'[' * count}{dots}'", f'a = "\\"{"{" * count}{dots}"',
                  f"a = '''\n'{'[' * count}{dots}'''", f'a = """\n"\\"{"[" * count}{dots}"""', f"a = [{'[],' * count}]",
                  "\n".join(["[[a]]"] * count), f"a = [{'1.5,' * count}]"]
    texts += ["", "\n", "\r\n", "\r", "\0", "\ufeffa = 1", "a = 1\ufeff", "a", "a =", "= 1", "a = 1 b = 2", "a = 1\na = 2",
              "[a]\n[a]", "[a]\n[[a]]", "[[a]]\n[a]", "a.b = 1\n[a]", "[a.b]\n[a]", "[a]\nb.c = 1\n[a.b]", "a = {b = 1}\n[a.c]",
              "a = [1]\n[[a]]", "a.b = 1\na.b.c = 2", "a = 1\na.b = 2", "a = 9223372036854775807", "a = 9223372036854775808",
              "a = -9223372036854775808", "a = 0xffffffffffffffff", "a = 0x7fffffffffffffff", "a = 01", "a = 1__0", "a = _1",
              "a = 1_", "a = 0x_1", "a = +0x1", "a = -0x1", "a = +0o1", "a = -0b1", "-0x1 = 1", "a = '+0x1'", "# +0x1", "a = -0", "a = 1.", "a = .5", "a = 1.e1", "a = 1e", "a = 1e400", "a = +inf",
              "a = Inf", "a = tRue", "a = 2020-02-29", "a = 2021-13-01", "a = 23:60:00", "a = 23:59:61", "a = 2021-1-1",
              "a = 00:00:00.",
              'a = "\\q"', 'a = "\\ud800"', 'a = "\\U00110000"', 'a = "\t"', "a = '\t'", 'a = "\x7f"', "a = 'b", 'a = "b\n"',
              "a = '''b", '"" = 1', "'' = 1", '"""a""" = 1', "a b = 1", "a . b = 1", "a..b = 1", ".a = 1", "a. = 1", "[]", "[[]]",
              "[ a ]", "[ [a]]", "[[a] ]", "[a] b = 1", "[a]]", "é = 1", "a = {}", "a = {,}", "a = [,]", "a = [1,,2]", "a = [1 2]",
              "a = {b = 1, b = 2}", "a = {b.c = 1, b.d = 2}", "a = {b = 1, b.c = 2}", "a = # b", "a = [ # b\n]", "# \0", "# \x7f",
              "# é", "1 = 1", "1.2 = 3", "true = 1", "- = 1", "a = 1 # b", "a = 1#b", "a=1\r\nb=2\r\n", "a=1\rb=2"]
    return [text.encode() for text in texts] + [b"\xff", b"a = '\xff'", b"# \xc3\x28", b"a = '\xed\xa0\x80'"]


def document(dice):
    """A text, and which forms of TOML 1.1 it has. Mostly it is TOML."""
    writer = Writer(dice, dice.random() < 0.15)
    names = random_names(dice)
    kind = dice.random()
    if kind < 0.4:
        text = settings(dice, names, list(range(1, 60))).decode()
    else:
        text = writer.document()
    if kind > 0.85 and text:
        at = dice.randrange(len(text))
        text = text[:at] + dice.choice("\n=[]{}\"'.,#a0-+_é\r\t ") + text[at + dice.randrange(2):]
        writer.new.add("a change that may make one of these")
    return text.encode(), writer.new
