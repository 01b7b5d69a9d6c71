"""What both test programs count and compare with."""
import sys

checks = 0


def same(got, want, what):
    """One check: got is want."""
    global checks
    checks += 1
    if got != want:
        sys.exit("{} differs: got {!r}, want {!r}".format(what, got, want))


def raised(kinds, call, *arguments, **named):
    """One check: the call raises an exception of all these kinds, which is answered."""
    global checks
    checks += 1
    try:
        call(*arguments, **named)
    except Exception as e:
        if not all(isinstance(e, kind) for kind in kinds):
            sys.exit("{!r} was raised, not one of {}".format(e, kinds))
        return e
    sys.exit("nothing was raised by {}{!r}".format(call.__name__, arguments))


def done(what):
    print("{}: {} checks".format(what, checks))
