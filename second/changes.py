"""Changes the second reading in small ways, one at a time, and lists the changes that no row of the vectors notices.

A comparison turned round, a number one larger or smaller, a condition or a statement left out. What is listed either changes
nothing that a machine can show, or names a row that is missing.
"""
import ast
import pathlib
import shutil
import subprocess
import sys
import tempfile

HERE = pathlib.Path(__file__).resolve().parent
TABLE = (HERE.parent / 'crates/vectors/stdin').read_text()
COMPARISONS = {
    ast.Lt: (ast.LtE, ast.GtE), ast.LtE: (ast.Lt, ast.Gt), ast.Gt: (ast.GtE, ast.LtE), ast.GtE: (ast.Gt, ast.Lt),
    ast.Eq: (ast.NotEq,), ast.NotEq: (ast.Eq,), ast.In: (ast.NotIn,), ast.NotIn: (ast.In,),
    ast.Is: (ast.IsNot,), ast.IsNot: (ast.Is,),
}
STATEMENTS = (ast.Assign, ast.AugAssign, ast.Expr, ast.If, ast.Raise)


def changes(tree):
    """Each change as (line, in words, what makes it)."""
    for node in ast.walk(tree):
        if isinstance(node, ast.Compare):
            for i, op in enumerate(node.ops):
                for other in COMPARISONS.get(type(op), ()):
                    yield node.lineno, other.__name__, lambda n=node, i=i, o=other: n.ops.__setitem__(i, o())
        elif isinstance(node, ast.BoolOp):
            other = ast.Or if isinstance(node.op, ast.And) else ast.And
            yield node.lineno, other.__name__, lambda n=node, o=other: setattr(n, 'op', o())
            for i in range(len(node.values)):
                yield node.lineno, 'without condition %d' % (i + 1), lambda n=node, i=i: n.values.pop(i)
        elif isinstance(node, ast.UnaryOp) and isinstance(node.op, ast.Not):
            yield node.lineno, 'without not', lambda n=node: setattr(n, 'op', ast.UAdd())
        elif isinstance(node, ast.Constant) and isinstance(node.value, bool):
            yield node.lineno, 'not %s' % node.value, lambda n=node: setattr(n, 'value', not n.value)
        elif isinstance(node, ast.Constant) and isinstance(node.value, int):
            for by in (1, -1):
                yield node.lineno, '%d for %d' % (node.value + by, node.value), lambda n=node, by=by: setattr(n, 'value', n.value + by)
        elif isinstance(node, (ast.FunctionDef, ast.If, ast.For)):
            for block in (node.body, getattr(node, 'orelse', [])):
                for i, statement in enumerate(block):
                    if isinstance(statement, STATEMENTS) and not (
                            isinstance(statement, ast.Expr) and isinstance(statement.value, ast.Constant)):
                        yield statement.lineno, 'left out', lambda b=block, i=i: b.__setitem__(i, ast.Pass())


def outcome(folder):
    try:
        run = subprocess.run([sys.executable, str(folder / 'table.py')], input=TABLE, capture_output=True, text=True, timeout=60)
    except subprocess.TimeoutExpired:
        return None
    return run.stdout if run.returncode == 0 else None


def main():
    right = outcome(HERE)
    tried = unseen = 0
    folder = pathlib.Path(tempfile.mkdtemp())
    for file in HERE.glob('*.py'):
        shutil.copy(file, folder)
    for name in ('machine.py', 'events.py', 'log.py'):
        text = (HERE / name).read_text()
        for i in range(len(list(changes(ast.parse(text))))):
            tree = ast.parse(text)
            line, words, make = list(changes(tree))[i]
            make()
            (folder / name).write_text(ast.unparse(tree))
            tried += 1
            if outcome(folder) == right:
                unseen += 1
                print('%s:%d: %s: %s' % (name, line, words, text.split('\n')[line - 1].strip()), flush=True)
        (folder / name).write_text(text)
    shutil.rmtree(folder)
    print('%d changes, %d not noticed' % (tried, unseen))


if __name__ == '__main__':
    main()
