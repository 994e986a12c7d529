"""Types of the sources, and what stands for one that is not known yet."""

NUMBERS = {"u8", "u16", "u32", "u64", "usize"}


class Unknown:
    """A type that is found out later; of a number where it stands for one."""

    def __init__(self, number=False):
        self.to = None
        self.number = number


class Type:
    """A type by its name and the types that it has; of an array the size too."""

    def __init__(self, name, args=(), size=None):
        self.name = name
        self.args = list(args)
        self.size = size

    def __repr__(self):
        inner = ", ".join(repr(known(a)) for a in self.args)
        return f"{self.name}<{inner}>" if inner else self.name


BOOL, UNIT, USIZE, NEVER = Type("bool"), Type("tuple"), Type("usize"), Type("never")


def known(it):
    """What is known of a type."""
    while isinstance(it, Unknown) and it.to is not None:
        it = it.to
    return it


def is_named(it, *names):
    it = known(it)
    return isinstance(it, Type) and it.name in names


def is_ref(it):
    return is_named(it, "ref", "refmut")


def is_slice(it):
    """Whether a reference is to a slice: in C it has a length beside it."""
    return is_ref(it) and is_named(known(it).args[0], "slice")


def referred(it):
    """The type behind all references."""
    it = known(it)
    return referred(it.args[0]) if is_ref(it) else it
