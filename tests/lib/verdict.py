"""What a script of trials expects, and its verdict."""
import sys

failed = False


def expect(title, got, wanted):
    global failed
    if got != wanted:
        failed = True
        print(f"{title}: {got!r:.2000}, and not {wanted!r:.2000}")


def end(name):
    """Says whether all was as told, and ends."""
    print(f"tests/{name}: " + ("not all is as told" if failed else "all is as told"))
    sys.exit(failed)
