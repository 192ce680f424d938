"""Holds what type checkers are told of the screen in Python (screen.pyi) to what it has and gives: of tests/screen_library."""

import ast
import inspect


LITERALS = {}  # the values of the types that the stub names by them


def fits(value, kind):
    """Whether a value is of the type that an annotation names. A bool is no int here."""
    if isinstance(kind, ast.Name) and kind.id in LITERALS:
        return type(value) is str and value in LITERALS[kind.id]
    if isinstance(kind, ast.Constant):
        return kind.value is None and value is None
    if isinstance(kind, ast.Name):
        return type(value).__name__ == kind.id
    name, of = kind.value.id, kind.slice
    if name == "List":
        return type(value) is list and all(fits(it, of) for it in value)
    if name == "Set":
        return type(value) is set and all(fits(it, of) for it in value)
    if name == "Tuple" and isinstance(of, ast.Tuple) and isinstance(of.elts[1], ast.Constant) and of.elts[1].value is ...:
        return type(value) is tuple and all(fits(it, of.elts[0]) for it in value)
    if name == "Tuple":
        return type(value) is tuple and len(value) == len(of.elts) and all(map(fits, value, of.elts))
    if name == "Optional":
        return value is None or fits(value, of)
    raise ValueError("tests/lib/screen_stub.py does not know the type %s" % ast.unparse(kind))


def given_to(module, function):
    """A value for each parameter that has no default: another screen, a number that is within a screen, a key, what the mouse does, or a str."""
    given = {"Screen": lambda name: module.Screen(3, 2), "int": lambda name: int("end" in name)}
    names = function.args.args[1 : len(function.args.args) - len(function.args.defaults)]
    words = {"name": "up", "action": "press"}
    return [words[it.arg] if it.arg in words else given.get(ast.unparse(it.annotation), lambda name: "\x1b[1;38;5;9mx")(it.arg) for it in names]


def parameters_of(function):
    """The names of a function that is told, each with its default."""
    defaults = [it.value for it in function.args.defaults]
    names = [it.arg for it in function.args.args]
    found = list(zip(names, [inspect.Parameter.empty] * (len(names) - len(defaults)) + defaults))
    found += [(it.arg, inspect.Parameter.empty) for it in [function.args.vararg] if it]
    found += [(it.arg, of.value) for it, of in zip(function.args.kwonlyargs, function.args.kw_defaults)]
    return found + [(it.arg, inspect.Parameter.empty) for it in [function.args.kwarg] if it]


def tuple_cases(module, told, values):
    """The fields of a named tuple, and what they are in those that a screen gives."""
    fields = {it.target.id: it.annotation for it in told.body if isinstance(it, ast.AnnAssign)}
    found = getattr(module, told.name)._fields
    yield "Python: the fields of %s" % told.name, None if tuple(fields) == found else "they are %s" % (found,)
    wrong = [(it, name) for it in values for name, kind in fields.items() if not fits(getattr(it, name, ...), kind)]
    yield "Python: what is told of the fields of %s" % told.name, "not so of %s" % wrong[:3] if wrong or not values else None


def public(told):
    """The functions of a class that is told whose names begin with no underscore; `close` is the last."""
    found = [it for it in told.body if isinstance(it, ast.FunctionDef) and not it.name.startswith("_")]
    return sorted(found, key=lambda it: it.name == "close")


def kept(told):
    """The attributes of a class that is told, each with its type."""
    found = {it.target.id: it.annotation for it in told.body if isinstance(it, ast.AnnAssign)}
    return {name: kind for name, kind in found.items() if not name.startswith("_")}


def function_cases(of, told):
    """What a class has, and what its functions are given."""
    wrong = {name for name in vars(of) if not name.startswith("_")} ^ {it.name for it in public(told)} ^ set(kept(told))
    yield "Python: types are told of all that a %s has" % told.name, "not so of %s" % sorted(wrong) if wrong else None
    made = [it for it in told.body if isinstance(it, ast.FunctionDef) and it.name == "__init__"]
    for it in public(told) + made:
        name, has = "%s.%s" % (told.name, it.name), getattr(of, it.name, None)
        is_property = any(ast.unparse(by) == "property" for by in it.decorator_list)
        wrong = is_property != isinstance(has, property)
        yield "Python: whether %s is called" % name, "it is %s" % type(has).__name__ if wrong else None
        if callable(has):
            found = [(by.name, by.default) for by in inspect.signature(has).parameters.values()]
            yield "Python: what %s is given" % name, None if found == parameters_of(it) else "it takes %s" % found


def answer_cases(module, told):
    """What the functions of a screen give."""
    screen = module.Screen(3, 2)
    screen.feed("\x1b[1;38;5;9mx")
    for name, kind in kept(told).items():
        yield "Python: what Screen.%s is" % name, None if fits(getattr(screen, name), kind) else "it is %r" % getattr(screen, name)
    for it in public(told):
        value = getattr(screen, it.name)
        value = value(*given_to(module, it)) if callable(value) else value
        yield "Python: what Screen.%s gives" % it.name, None if fits(value, it.returns) else "it is %r" % (value,)


def literal_cases(module, stub):
    """The types that are named by their values, beside what the module has."""
    for it in ast.parse(stub).body:
        if isinstance(it, ast.Assign) and isinstance(it.value, ast.Subscript) and it.value.value.id == "Literal":
            LITERALS[it.targets[0].id] = list(ast.literal_eval(it.value.slice))
    from ansi_proved import STYLINGS

    wanted = {"_Kind": module.KINDS, "_Underline": module.UNDERLINES, "_Styling": list(STYLINGS), "_Mouse": module.MOUSE, "_Encoding": module.ENCODINGS, "_Shape": module.SHAPES}
    wanted.update(_Event=module.EVENTS, _Action=module.ACTIONS)
    yield "Python: the values that types are named by", None if LITERALS == wanted else "they are %s" % LITERALS


def cases(module, stub):
    """Each class that the stub, a text, tells of the module."""
    yield from literal_cases(module, stub)
    told = [it for it in ast.parse(stub).body if isinstance(it, ast.ClassDef)]
    screen = module.Screen(3, 2)
    screen.feed("\x1b[31mx\x1b[1;38;5;9;48;2;1;2;3my")
    values = {"Cell": screen.row(0), "Change": screen.changes(), "Cursor": [screen.cursor], "Modes": [screen.modes]}
    values.update(Place=[screen.place, screen.saved], Margins=[screen.margins])
    values["Style"] = [screen.style, *(it.style for it in values["Cell"])]
    values["Color"] = [color for it in values["Style"] for color in (it.foreground, it.background)]
    for it in told:
        if any(ast.unparse(base) == "NamedTuple" for base in it.bases):
            yield from tuple_cases(module, it, values.get(it.name, []))
        else:
            yield from function_cases(getattr(module, it.name), it)
        if it.name == "Screen":
            yield from answer_cases(module, it)
