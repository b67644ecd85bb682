"""Edits of the reckoner, made from its own text: one number, comparison, sign, name or part of it is read otherwise.

`edits()` gives each with its words, which are the function or constant and the expression before and after, and with
the names that it replaces in `reckon`.
"""

import ast
import builtins
import copy
import inspect

import reckon

FIRST, LAST = "number", "reckon"  # of the functions in scope: what comes after them writes lines or is for demand 3
OUT_OF_SCOPE = {"show_record", "RESULT_BYTES"}

TURNED = {ast.Lt: (ast.LtE,), ast.LtE: (ast.Lt,), ast.Gt: (ast.GtE,), ast.GtE: (ast.Gt,), ast.Eq: (ast.LtE, ast.GtE),
          ast.NotEq: (ast.Lt, ast.Gt)}
SIGNS = {ast.Add: ast.Sub, ast.Sub: ast.Add, ast.Mod: ast.FloorDiv, ast.FloorDiv: ast.Mod}
COUNTERPARTS = (("max", "min"), ("any", "all"), ("left", "right"), ("first", "last"), ("start_speed", "end_speed"),
                ("power", "mass"), ("level_i", "level_j"), ("a_i", "a_j"), ("i", "j"), ("W", "C"), ("R", "a_urban"),
                ("a_ref", "a_urban"), ("a_test", "a_urban"), ("a", "next_a"), ("LEVEL", "OVERLOAD"), ("LEVEL", "ABSENT"),
                ("ACCELERATION_RUN", "CONSTANT_RUN"), ("LOWEST_LEVEL", "HIGHEST_LEVEL"),
                ("a_urban_of", "a_ref_of"), ("sorted", "list"), ("VEHICLE", "CLOSING"), ("M1", "N1"), ("phase", "low_car"),
                ("LIMITS_ABOVE", "LOW_CAR_LIMITS"), ("LOW_CARS_ABOVE", "HIGHEST_PMR"),
                ("LOWEST_PMR", "CONSTANT_SPEED_PMR"), ("HIGHEST_PMR", "CONSTANT_SPEED_PMR"))


def counterparts(name):
    return [pair[1 - pair.index(name)] for pair in COUNTERPARTS if name in pair]


def expression(text, **parts):
    """The syntax tree of an expression, with trees in the place of some of its names."""
    class Fill(ast.NodeTransformer):
        def visit_Name(self, node):
            return copy.deepcopy(parts.get(node.id, node))
    return Fill().visit(ast.parse(text, mode="eval").body)


def changed_copy(node, **fields):
    other = copy.deepcopy(node)
    for name, value in fields.items():
        setattr(other, name, value)
    return other


def without_each(items):
    return [items[:at] + items[at + 1:] for at in range(len(items))]


def of_number(node):
    if type(node.value) is int:
        yield from (ast.Constant(node.value + step) for step in (-1, 1))


def of_name(node):
    if isinstance(node.ctx, ast.Load):
        yield from (changed_copy(node, id=other) for other in counterparts(node.id))


def of_attribute(node):
    yield from (changed_copy(node, attr=other) for other in counterparts(node.attr))


def of_comparison(node):
    """Each comparison strict or not, and of a chain either half alone."""
    for at, operator in enumerate(node.ops):
        for other in TURNED.get(type(operator), ()):
            yield changed_copy(node, ops=node.ops[:at] + [other()] + node.ops[at + 1:])
    if len(node.ops) == 2:
        yield changed_copy(node, ops=node.ops[:1], comparators=node.comparators[:1])
        yield changed_copy(node, left=node.comparators[0], ops=node.ops[1:], comparators=node.comparators[1:])


def of_conditions(node):
    """Each of several conditions left out, and `and` for `or`."""
    for rest in without_each(node.values):
        yield rest[0] if len(rest) == 1 else changed_copy(node, values=rest)
    yield changed_copy(node, op=ast.Or() if isinstance(node.op, ast.And) else ast.And())


def of_operation(node):
    if type(node.op) in SIGNS:
        yield changed_copy(node, op=SIGNS[type(node.op)]())
    if isinstance(node.op, (ast.Sub, ast.Div)):
        yield changed_copy(node, left=node.right, right=node.left)


def of_call(node):
    """Another rounding, a division without its remainder, another place."""
    name, arguments = getattr(node.func, "id", None), node.args
    if name == "rounded":
        yield from (expression(text, x=arguments[0]) for text in ("(x).__floor__()", "(x).__ceil__()"))
    elif name == "abs":
        yield arguments[0]
    elif name == "Fraction" and len(arguments) == 2:
        yield expression("a // b", a=arguments[0], b=arguments[1])
    elif name == "Refused" and not isinstance(arguments[1], ast.Constant):
        for text in ("0", "place + 1", "place - 1"):
            yield changed_copy(node, args=[arguments[0], expression(text, place=arguments[1])])


def of_choice(node):
    yield from (node.body, node.orelse)


def of_if(node):
    yield changed_copy(node, test=ast.Constant(False))


def of_not(node):
    if isinstance(node.op, ast.Not):
        yield node.operand


def of_selection(node):
    """The conditions of a comprehension, left out."""
    if node.ifs:
        yield changed_copy(node, ifs=[])


ALTERNATIVES = {ast.Constant: of_number, ast.Name: of_name, ast.Attribute: of_attribute, ast.Compare: of_comparison,
                ast.BoolOp: of_conditions, ast.BinOp: of_operation, ast.Call: of_call, ast.IfExp: of_choice, ast.If: of_if,
                ast.UnaryOp: of_not, ast.comprehension: of_selection}


def sites(root):
    """Each part of a tree that can be read otherwise: what holds it, in which field and at which place of a list."""
    for parent in ast.walk(root):
        for field, value in ast.iter_fields(parent):
            if field not in ("decorator_list", "targets", "target") and not isinstance(parent, ast.AugAssign):
                for at, part in enumerate(value) if isinstance(value, list) else ((None, value),):
                    if type(part) in ALTERNATIVES:
                        yield parent, field, at, part


def put(parent, field, at, part):
    if at is None:
        setattr(parent, field, part)
    else:
        getattr(parent, field)[at] = part


def text_of(parent, part):
    """A part in its text, a number or a name with what is around it; a statement by its first line."""
    shown = parent if isinstance(part, (ast.Constant, ast.Name, ast.Attribute)) and not isinstance(parent, ast.If) else part
    return ast.unparse(shown).split("\n")[0].strip()


def words_of(before, part, parent, other):
    """The text before and after; of several conditions the one that is left out."""
    if isinstance(part, ast.BoolOp):
        kept = other.values if isinstance(other, ast.BoolOp) else [other]
        for value in part.values:
            if value not in kept:
                return f"without {ast.unparse(value)}"
    return f"{before} -> {text_of(parent, other)}"


def names_in(statement):
    """The names that a definition can use: its own and the reckoner's."""
    own = {node.id for node in ast.walk(statement) if isinstance(node, ast.Name) and isinstance(node.ctx, ast.Store)}
    return own | {node.arg for node in ast.walk(statement) if isinstance(node, ast.arg)} | set(vars(reckon)) | set(dir(builtins))


def compiled(statement):
    """What a definition or an assignment gives its names, in the reckoner's own surroundings."""
    given = {}
    module = ast.fix_missing_locations(ast.Module([copy.deepcopy(statement)], []))
    exec(compile(module, "edit", "exec"), vars(reckon), given)
    return given


def edits_of(statement):
    name = statement.name if isinstance(statement, ast.FunctionDef) else ast.unparse(statement.targets[0])
    known = names_in(statement)
    for parent, field, at, part in list(sites(statement)):
        before = text_of(parent, part)
        for other in ALTERNATIVES[type(part)](part):
            if getattr(other, "id", None) in known | {None}:
                put(parent, field, at, other)
                yield f"{name}: {words_of(before, part, parent, other)}", compiled(statement)
                put(parent, field, at, part)


def in_scope():
    """The constants, and the functions of the evaluation."""
    statements = ast.parse(inspect.getsource(reckon)).body
    named = [getattr(statement, "name", None) for statement in statements]
    first, last = named.index(FIRST), named.index(LAST)
    for at, statement in enumerate(statements):
        if isinstance(statement, ast.FunctionDef) and first <= at <= last and statement.name not in OUT_OF_SCOPE:
            statement.body = [part for part in statement.body if not isinstance(part, ast.Assert)]
            yield statement
        elif isinstance(statement, ast.Assign) and ast.unparse(statement.targets[0]) not in OUT_OF_SCOPE:
            yield statement


def edits():
    seen = {}
    for statement in in_scope():
        for words, changes in edits_of(statement):
            seen[words] = seen.get(words, 0) + 1
            yield words if seen[words] == 1 else f"{words} ({seen[words]})", changes


READINGS = list(edits())


def of(name, *changes):
    return [f"{name}: {change}" for change in changes]


# Edits that give the same answer on every sheet, by the reason.
EQUIVALENT = {
    "32,769 bytes are no whole records": ["MOST_SHEET_BYTES: MOST_SHEET_BYTES = 32768 -> MOST_SHEET_BYTES = 32769"],
    "no number and no byte is below 0": [
        "VEHICLE_NUMBERS: (12, 0, 1000) -> (12, -1, 1000)", "VEHICLE_NUMBERS: (18, 0, 1000) -> (18, -1, 1000)",
        "RUN_NUMBERS: (20, 0, 20000) -> (20, -1, 20000)", "CLOSING_NUMBERS: (4, 0, 1000) -> (4, -1, 1000)",
        "CLOSING_NUMBERS: (6, 0, 1000) -> (6, -1, 1000)", "read_background: right == 0 -> right <= 0",
        "are_zero: record[at] == 0 -> record[at] <= 0", "limit_layout: number(record, 14) == 0 -> number(record, 14) <= 0",
        "refuse_look_up: vehicle.limit != 0 -> vehicle.limit > 0", "limit_found: vehicle.limit == 0 -> vehicle.limit <= 0",
        *of("reading_layout", "kind == ABSENT -> kind <= ABSENT", "four == bytes(4) -> four <= bytes(4)"),
        *of("refuse_form", "len(sheet) % RECORD_BYTES != 0 -> len(sheet) % RECORD_BYTES > 0", "at == 0 -> at <= 0"),
        "read_reading: kind == ABSENT -> kind <= ABSENT"],
    "nothing is taken off at 15 dB or above it": [
        "CORRECTIONS: {10: 5, 11: 4, 12: 3, 13: 2, 14: 1, 15: 0} -> {10: 5, 11: 4, 12: 3, 13: 2, 14: 1, 16: 0}"],
    "such a float is outside 20.0 to 140.0 either way": of(
        "float_value", "if exponent == 255: -> if False:", "if exponent == 0: -> if False:", "exponent == 255 -> exponent >= 255",
        "exponent == 0 -> exponent <= 0", "exponent == 255 -> exponent == 254", "exponent == 255 -> exponent == 256",
        "exponent == 0 -> exponent == -1", "exponent == 0 -> exponent == 1", "-1 -> -0", "-1 -> -2",
        "Fraction(fraction, 2 ** 149) -> fraction // 2 ** 149", "2 ** 149 -> 3 ** 149", "2 ** 149 -> 2 ** 148",
        "2 ** 149 -> 2 ** 150"),
    "the sheet has whole records when it comes to this": ["records_of: len(sheet) - RECORD_BYTES + 1 -> len(sheet) - RECORD_BYTES + 2"],
    "refusals 3 and 4 have asked byte 0": [
        *of("vehicle_layout", "without record[0] == VEHICLE", "record[0] == VEHICLE -> record[0] <= VEHICLE",
            "record[0] == VEHICLE -> record[0] >= VEHICLE"),
        *of("closing_layout", "without record[0] == CLOSING", "record[0] == CLOSING -> record[0] <= CLOSING",
            "record[0] == CLOSING -> record[0] >= CLOSING")],
    "the layout leaves no other value": [
        "run_layout: record[0] == ACCELERATION_RUN -> record[0] <= ACCELERATION_RUN", "read_vehicle: first[2] == 1 -> first[2] >= 1",
        "read_run: record[2] == 1 -> record[2] >= 1", "refuse_look_up: vehicle.category == N1 -> vehicle.category >= N1",
        "acceleration_windows: run.kind == ACCELERATION_RUN -> run.kind <= ACCELERATION_RUN"],
    "refusal 12 leaves no other value": ["limit_found: vehicle.low_car == 1 -> vehicle.low_car >= 1"],
    "no record comes after the last, and no gear": ["refuse_form: at == last -> at >= last",
                                                    "choose_gears: at + 1 == len(gears) -> at + 1 >= len(gears)"],
    "validity asks the kind before the level": ["read_reading: None if kind == ABSENT else float_value(four) -> float_value(four)"],
    "no power of q is an odd power of ten: q would be 100 or 1,000": [
        "power_hundredth: 10 ** (2 * N + offset + 2) <= power -> 10 ** (2 * N + offset + 2) < power"],
    "the N that is looked for is 35 or more": of("power_hundredth", "(q ** exponent, 0) -> (q ** exponent, -1)",
                                                 "(q ** exponent, 0) -> (q ** exponent, 1)"),
    "a distance has no sign": ["is_near: a - R -> R - a", "choose_gears: a - R -> R - a"],
    "without a gear there is no i: refusal 9 all the same": of("choose_gears", "if not gears: -> if False:",
                                                               "len(gears) == 1 -> len(gears) <= 1"),
    "rule 4 finds j: a gear at 3.00 or above it is i, one before i, or taken by rule 2": of(
        "choose_gears", "if not below: -> if False:", "a < CEILING -> a <= CEILING", "Refused(9, 0) -> Refused(8, 0) (3)",
        "Refused(9, 0) -> Refused(10, 0) (3)", "Refused(9, 0) -> Refused(9, -1) (3)", "Refused(9, 0) -> Refused(9, 1) (3)"),
    "of one, the first is the last": ["choose_gears: gears[0] -> gears[-1]", "weighed_level: levels[0] -> levels[-1]"],
    "one gear or two are chosen": ["weighed_level: len(levels) == 1 -> len(levels) <= 1"],
    "1 - a_urban / a' is 0 there": ["exact_kp: a_test < a_urban -> a_test <= a_urban"],
    "kp is 1 where W < C, and W - C is 0 where they are equal": of("L_urban_of", "if W < C: -> if False:", "W < C -> W <= C",
                                                                   "W < C -> C < C", "W < C -> W < W"),
    "gear i has the lower number": ["constant_windows: sorted(chosen) -> list(chosen)"],
    "no line shows a record number: it is for demand 3": of("reckon", "start=1 -> start=0", "start=1 -> start=2"),
    "a vehicle record is no run of kind 2 or 3": ["reckon: 1:-1 -> 0:-1"],
}
