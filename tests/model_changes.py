"""Changes of the model of the profile, one at a time, and whether a case shows each.

A change is one of these: a number one up or down; another comparison, operator or sign; a question turned; another printed or compared
word; a refusal or a statement left out; two refusals, or two neighbours of a list or of a call's operands, in the other order.
"""
import ast
import signal
import sys
import types

from support import ROOT  # the model is beside ground's tools
import profile_model

OTHER = {
    ast.Lt: ast.LtE, ast.LtE: ast.Lt, ast.Gt: ast.GtE, ast.GtE: ast.Gt, ast.Eq: ast.NotEq, ast.NotEq: ast.Eq, ast.In: ast.NotIn,
    ast.NotIn: ast.In,
    ast.Is: ast.IsNot, ast.IsNot: ast.Is, ast.Add: ast.Sub, ast.Sub: ast.Add, ast.Mult: ast.Add, ast.FloorDiv: ast.Mod,
    ast.Mod: ast.FloorDiv,
    ast.Pow: ast.Mult, ast.LShift: ast.RShift, ast.RShift: ast.LShift, ast.BitAnd: ast.BitOr, ast.BitOr: ast.BitAnd, ast.BitXor: ast.BitOr,
    ast.And: ast.Or, ast.Or: ast.And}
# a case that takes so much longer than it did, in seconds of the processor, does not end
SECONDS, TIMES = 1, 10
# one that takes so long is not asked which functions it enters, and runs for each change that no quicker one shows
LONG = 0.05


class Sources:
    """The model's modules as trees, and compiled."""

    def __init__(self, texts):
        self.trees = {name: ast.parse(text) for name, text in texts.items()}
        self.codes = {name: self.compiled(name) for name in texts}

    def compiled(self, name):
        return compile(self.trees[name], f"profile_model/{name}.py", "exec")

    def model(self, changed=None):
        """What the modules define, anew, one of them as its tree is now."""
        model = {}
        for name, code in self.codes.items():
            module = types.ModuleType(f"profile_model.{name}")
            sys.modules[module.__name__] = module
            exec(self.compiled(name) if name == changed else code, module.__dict__)
            model |= module.__dict__
        return model


def sources():
    return Sources({name: (ROOT / f"ground/profile_model/{name}.py").read_text() for name in profile_model.MODULES})


class Change:
    """A change: its place, how to make it (which answers how to undo it), and the text before and after."""

    def __init__(self, module, function, line, make, words):
        self.module, self.function, self.line, self.make = module, function, line, make
        self.was = words()
        back = make()
        try:
            self.becomes = words()
        finally:
            back()

    def key(self):
        return f"{self.function} | {self.was} | {self.becomes}"


def is_refusal(statement):
    return isinstance(statement, ast.If) and not statement.orelse and isinstance(statement.body[-1], (ast.Raise, ast.Return))


def exclude_each_other(first, second):
    """Whether two refusals ask whether one value is this or that."""
    tests = [it.test for it in (first, second)]
    are_choices = all(isinstance(it, ast.Compare) and isinstance(it.ops[0], (ast.Eq, ast.In)) for it in tests)
    return are_choices and ast.dump(tests[0].left) == ast.dump(tests[1].left)


def head(statement):
    """The words of a statement without the statements in it."""
    if isinstance(statement, ast.Pass):
        return "nothing"
    return ast.unparse(statement).split("\n")[0]


def swapped(node, field, value):
    def make():
        old = getattr(node, field)
        setattr(node, field, value)
        return lambda: setattr(node, field, old)
    return make


def placed(items, at, *new):
    def make():
        old = items[at : at + len(new)]
        items[at : at + len(new)] = new
        return lambda: items.__setitem__(slice(at, at + len(new)), old)
    return make


def turned(node):
    return ast.copy_location(ast.UnaryOp(ast.Not(), node), node)


def changes_of_node(node):
    """The changes of a node itself."""
    if isinstance(node, ast.Constant):
        if isinstance(node.value, bool):
            yield swapped(node, "value", not node.value)
        elif isinstance(node.value, int):
            yield swapped(node, "value", node.value + 1)
            yield swapped(node, "value", node.value - 1)
        elif isinstance(node.value, (str, bytes)) and node.value.strip():
            yield swapped(node, "value", node.value + ("~" if isinstance(node.value, str) else b"~"))
    elif isinstance(node, ast.Compare):
        for at, operator in enumerate(node.ops):
            yield placed(node.ops, at, OTHER[type(operator)]())
    elif isinstance(node, (ast.BinOp, ast.BoolOp, ast.AugAssign)):
        yield swapped(node, "op", OTHER[type(node.op)]())
    elif isinstance(node, ast.UnaryOp) and isinstance(node.op, ast.USub):
        yield swapped(node, "op", ast.UAdd())
    elif isinstance(node, ast.UnaryOp) and not isinstance(node.operand, ast.Compare):
        yield swapped(node, "operand", turned(node.operand))
    elif isinstance(node, (ast.If, ast.IfExp, ast.While)) and isinstance(node.test, (ast.Name, ast.Attribute, ast.Call)):
        yield swapped(node, "test", turned(node.test))


def changes_of_order(node):
    """Each two neighbours that are not the same."""
    if isinstance(node, (ast.Tuple, ast.List)) and isinstance(node.ctx, ast.Load):
        items = node.elts
    else:
        items = node.args if isinstance(node, ast.Call) else []
    for at, (first, second) in enumerate(zip(items, items[1:])):
        if ast.dump(first) != ast.dump(second) and not isinstance(first, ast.Starred) and not isinstance(second, ast.Starred):
            yield placed(items, at, second, first)


def changes_of_body(body):
    """The changes of a list of statements, each with the place of its first statement and how many it changes."""
    for at, statement in enumerate(body):
        nothing = ast.copy_location(ast.Pass(), statement)
        if is_refusal(statement):
            yield at, 1, placed(body, at, nothing)
            if at + 1 < len(body) and is_refusal(body[at + 1]) and not exclude_each_other(statement, body[at + 1]):
                yield at, 2, placed(body, at, body[at + 1], statement)
        elif (isinstance(statement, (ast.Assign, ast.AugAssign, ast.Raise))
              or isinstance(statement, ast.Expr) and not isinstance(statement.value, ast.Constant)):
            yield at, 1, placed(body, at, nothing)


def changes_of(module, tree):
    """Each change of a module."""
    found = []
    # what a value is looked for in has no order
    unordered = {id(it) for node in ast.walk(tree) if isinstance(node, ast.Compare) for it in node.comparators}

    def visit(node, function, statement):
        if isinstance(node, (ast.FunctionDef, ast.ClassDef)):
            function = f"{function}.{node.name}"
        if isinstance(node, ast.stmt):
            statement = node
        for make in [*changes_of_node(node), *(() if id(node) in unordered else changes_of_order(node))]:
            found.append(Change(module, function, node.lineno, make, lambda: head(statement)))
        for field in ("body", "orelse"):
            body = getattr(node, field, None)
            for at, count, make in changes_of_body(body) if isinstance(body, list) else ():
                found.append(Change(module, function, body[at].lineno, make, lambda: "; ".join(map(head, body[at : at + count]))))
        for child in ast.iter_child_nodes(node):
            if not is_import_or_docstring(child):
                visit(child, function, statement)
    visit(tree, module, None)
    return found


def is_import_or_docstring(node):
    return isinstance(node, ast.ImportFrom) or (isinstance(node, ast.Expr) and isinstance(node.value, ast.Constant))


def excuses():
    """The changes that show nowhere. In the file the reason is above them, after `#`."""
    lines = (ROOT / "tests/model_excuses").read_text().splitlines()
    return {line for line in lines if line and not line.startswith("#")}


# ---- which cases run what

def functions_of(case, model):
    """The first lines of the functions of the model that a case enters."""
    entered = set()

    def trace(frame, *_):
        code = frame.f_code
        if code.co_filename.startswith("profile_model/"):
            entered.add((code.co_filename, code.co_firstlineno))
    sys.settrace(trace)
    try:
        case.output(model)
    finally:
        sys.settrace(None)
    return entered


class Runs:
    """Which cases enter which functions, the quick ones first."""

    def __init__(self, sources, cases):
        model = sources.model()
        self.runs = [(case, functions_of(case, model) if case.seconds < LONG else None)
                     for case in sorted(cases, key=lambda it: it.seconds)]
        self.spans = {name: [(it.lineno, it.end_lineno) for it in ast.walk(tree) if isinstance(it, ast.FunctionDef)]
                      for name, tree in sources.trees.items()}

    def of(self, change):
        """The cases that enter the function of a change; all of them if it is in none."""
        spans = [it for it in self.spans[change.module] if it[0] <= change.line <= it[1]]
        if not spans:
            return [case for case, _ in self.runs]
        first, last = min(spans, key=lambda it: it[1] - it[0])
        name = f"profile_model/{change.module}.py"
        return [case for case, entered in self.runs if entered is None or any(at == name and first <= line <= last for at, line in entered)]


def is_noticed(model, cases):
    """Whether some case comes out otherwise, fails, or does not end."""
    def late(*_):
        raise TimeoutError
    signal.signal(signal.SIGVTALRM, late)
    try:
        for case in cases:
            signal.setitimer(signal.ITIMER_VIRTUAL, SECONDS + TIMES * case.seconds)
            if not case.agrees(model):
                return True
        return False
    finally:
        signal.setitimer(signal.ITIMER_VIRTUAL, 0)


def changes(sources):
    """Each change of each module."""
    return [it for name, tree in sources.trees.items() for it in changes_of(name, tree)]


def shows(sources, runs, change):
    """Whether some case shows a change."""
    back = change.make()
    try:
        return is_noticed(sources.model(change.module), runs.of(change))
    except Exception:  # a model that fails gives no output
        return True
    finally:
        back()
