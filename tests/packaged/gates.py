"""No package is made if there is no gate of the commit, or the tree, a program or a page is not as it should be."""
from .trees import RESULT, changed, record, refusal


def trials_of_records(trees):
    """A gate leaves a record only of a commit, and one that did not end leaves none."""
    tree = trees.one
    yield "no gate", refusal(tree, 5, "no gate has passed")
    record(tree, "begin")
    trees.fill(tree)
    yield "a gate that did not end", refusal(tree, 5, "no gate has passed")
    (tree / "new").touch()
    yield "a gate that ends in another tree", "not clean" not in record(tree, "end", RESULT)
    (tree / "new").unlink()
    yield "it leaves no record", refusal(tree, 5, "no gate has passed")
    with changed(tree, "README.md", "Kigvarp", "Another"):
        yield "a gate that ends with another commit", "did not begin" not in record(tree, "end", RESULT)
        yield "it leaves no record either", refusal(tree, 5, "no gate has passed")


def trials_of_trees(trees):
    """What the record says is compared with the tree."""
    tree = trees.passed(trees.one)
    program = tree / "crates/rio_cli/out/rio_cli"
    whole = program.read_bytes()
    (tree / "new").touch()
    yield "a tree with a new file", refusal(tree, 4, "not clean")
    (tree / "new").unlink()
    program.write_bytes(whole + b"\n")
    yield "a program that was changed", refusal(tree, 3, "crates/rio_cli/out/rio_cli is not what the gate left")
    program.unlink()
    yield "a program that is gone", refusal(tree, 3, "crates/rio_cli/out/rio_cli is not what the gate left", "--release")
    program.write_bytes(whole)
    lines = (tree / "out/gate/record").read_text()
    (tree / "out/gate/record").write_text("".join(it for it in lines.splitlines(True) if "rio_port" not in it))
    yield "a program that the gate did not leave", refusal(tree, 3, "the gate left no crates/rio_port/out/rio_port")
    (tree / "out/gate/record").write_text(lines)
    with changed(tree, "README.md", "Kigvarp", "Another"):
        yield "a later commit", refusal(tree, 5, "run 'bash .ci/run'", "--release")
    yield "a word that it does not know", refusal(tree, 2, "usage:", "--proved")


def trials_of_pages(trees):
    """A page lacks what is taken from it."""
    for name, page, old, new, why in (
        ("a table with another head", "docs/running.md", "| status | name |", "| status | called |",
         "status | name"),
        ("a changelog without heads", "CHANGELOG.md", "## ", "", "CHANGELOG.md"),
        ("a version of its own in the changelog", "CHANGELOG.md", "next one.\n", "next one.\n\n## 7.6.5, 2026-01-01\n",
         "the newest release of CHANGELOG.md is 7.6.5"),
    ):
        with changed(trees.one, page, old, new):
            yield name, refusal(trees.passed(trees.one), 1, why)


def trials(trees):
    yield from trials_of_records(trees)
    yield from trials_of_trees(trees)
    yield from trials_of_pages(trees)
