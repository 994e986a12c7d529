"""All items of the sources by their names, and the types that these stand for."""
from .lexing import Refused
from .types import NUMBERS, Type

# The one type that each bound of the sources stands for here.
BOUNDS = {"Flash": "Device", "Nor": "Numbers", "EccNor": "EccNumbers", "Lookup": "Lookup", "Listing": "LentList"}
# The bounds that stand for several types: a function is made for each that it is called with.
GIVEN_BY_CALLS = ("Copy", "LiveCursor")
# The traits whose methods are written by hand.
BY_HAND = ("Flash", "Nor", "EccNor", "Lookup")
# Constants of types that stand outside of the sources, with their values.
BY_VALUE = {"Address::LEAST": "1u"}
# The enums that say why a call isn't made: in C each is the status of ee.h that tells it, and what
# else it holds isn't kept. One that stands in another is that other's number too.
STATUSES = {"Off": "EE_NOT_OPEN", "Full": "EE_FULL", "Memory": "EE_FULL", "Spent": "EE_SPENT",
            "Cut": "EE_DRIVER", "Twice": "EE_DUPLICATE", "Absent": "EE_ABSENT",
            "Unformatted": "EE_UNFORMATTED", "NoLiveSet": "EE_NO_LIVE_SET",
            "TwoLive": "EE_TWO_LIVE", "Foreign": "EE_FOREIGN"}
FAULTS = ("ScanFault", "OpenFault", "WriteFault", "WriteAllFault", "ForgetFault", "ClearFault")
INNER = {("OpenFault", "Scan")}
# The parameters of a generic struct of the sources, with their bounds.
PARAMETERS = {"F": "Flash", "N": "Nor", "L": "Lookup"}


class Local:
    """A local or a parameter of a function."""

    def __init__(self, name, of_type, changes=False):
        self.name, self.ty, self.mut, self.cname = name, of_type, changes, None


class Function:
    """A function with where it stands: its module, and its type if it is a method."""

    def __init__(self, node, module, owner, order, bounds):
        self.node, self.module, self.owner = node, module, owner
        self.order, self.bounds, self.name = order, bounds, node.name


class Module:
    """A source: its folder, name and items."""

    def __init__(self, folder, name, items, path):
        self.folder, self.name, self.items, self.path = folder, name, items, path


class Program:
    """The items of all modules, which are in order."""

    def __init__(self, modules):
        self.modules = modules
        self.types, self.consts, self.fns, self.methods, self.uses = {}, {}, {}, {}, {}
        self.aliases = {}
        self.folder = {m.name: m.folder for m in modules}
        self.paths = {m.name: m.path for m in modules}
        for rank, module in enumerate(modules):
            self.uses[module.name] = {}
            for place, item in enumerate(module.items):
                item.module, item.order = module.name, (rank, place)
                getattr(self, "add_" + item.kind, lambda _: None)(item)
        self.name_types()
        for module in modules:
            for item in module.items:
                if item.kind in ("impl", "trait"):
                    self.add_methods(item)
        self.share_docs()

    def add_use(self, item):
        for alias, path in item.names:
            self.uses[item.module][alias] = path

    def add_struct(self, item):
        self.types[item.module, item.name] = item

    add_enum = add_struct

    def add_type(self, item):
        self.aliases[item.module, item.name] = item

    def add_const(self, item):
        self.consts[item.module, item.name] = item

    def add_fn(self, item):
        self.fns[item.module, item.name] = Function(item, item.module, None, item.order,
                                                    item.bounds)

    def name_types(self):
        """A name for each type; that of its module comes first where two have one."""
        names = [name for _, name in self.types]
        for (module, name), item in self.types.items():
            alone = names.count(name) == 1
            item.cname = name if alone else module.title().replace("_", "") + name
        self.by_cname = {item.cname: item for item in self.types.values()}

    def add_methods(self, item):
        if item.kind == "trait":
            if item.name not in BY_HAND:
                return
            owner, bounds = Type(BOUNDS[item.name]), {}
        else:
            owner, bounds = self.type(item.ty, item.module, item.bounds), item.bounds
        for place, fn in enumerate(item.fns):
            if fn.kind == "fn":
                self.methods[owner.name, fn.name] = Function(
                    fn, item.module, owner, (*item.order, place), {**bounds, **fn.bounds})

    def share_docs(self):
        """A method of a trait has the trait's comment."""
        items = [item for m in self.modules for item in m.items]
        docs = {(item.name, fn.name): fn.doc
                for item in items if item.kind == "trait" for fn in item.fns}
        for item in items:
            if item.kind == "impl" and item.trait:
                for fn in item.fns:
                    fn.doc = fn.doc or docs.get((item.trait[0], fn.name), [])

    def find(self, table, name, module):
        """What a name means in a module, None where nothing has it."""
        if (module, name) in table:
            return table[module, name]
        path = self.uses[module].get(name)
        real = path[-1] if path else name
        found = [(m, item) for (m, n), item in table.items() if n == real]
        if path:
            # A path names a folder, and often a module.
            folders = [word for word in path if word in self.folder.values()]
            modules = [word for word in path[:-1] if word in self.folder]
            if folders:
                found = [(m, item) for m, item in found if self.folder[m] == folders[-1]]
            if modules and len(found) > 1:
                found = [(m, item) for m, item in found if m in modules]
        return found[0][1] if len(found) == 1 else None

    def type(self, written, module, bounds, owner=None, given=None):
        """The type that a written one is, in a module and under these bounds."""
        name, args = written[0], written[1]

        def inner():
            return [self.type(a, module, bounds, owner, given) for a in args]

        if name == "array":
            return Type("array", inner(), written[2])
        if name in ("ref", "refmut", "slice", "tuple", "Option", "Result"):
            return Type(name, inner())
        if given and name in given:
            return given[name]
        if name in bounds:
            bound = bounds[name]
            return Type(BOUNDS[bound]) if bound in BOUNDS else Type("param:" + name)
        if name == "Self":
            return owner
        if name in NUMBERS or name == "bool":
            return Type(name)
        item, alias = self.find(self.types, name, module), self.find(self.aliases, name, module)
        if alias is not None:
            return self.type(alias.ty, alias.module, {})
        if item is None:
            raise KeyError(f"no type {name}")
        return Type(item.cname)

    def field_types(self, item):
        """The fields of a struct, with their types and comments."""
        bounds = {**PARAMETERS, **item.bounds}
        return [(name, self.type(of_type, item.module, bounds), doc)
                for name, of_type, doc in item.fields]

    def variant_fields(self, item, variant):
        """The fields of a variant, with their types; a field without a name has None."""
        fields = next((f for name, f, _ in item.variants if name == variant), None)
        if fields is None:
            raise Refused(f"{self.paths[item.module]}: {item.name} has no {variant}")
        return [(name, self.type(of_type, item.module, {})) for name, of_type in fields]

    def item_of(self, of_type):
        """The struct or enum that a type is, None for another."""
        return self.by_cname.get(of_type.name) if isinstance(of_type, Type) else None


def is_flat(item):
    """Whether a struct or enum is an enum whose variants have no fields, or keep none in C."""
    return item is not None and item.kind == "enum" and (
        item.name in FAULTS or all(not f for _, f, _ in item.variants))
