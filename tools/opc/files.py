"""Files as they are read and written: whole, or not at all."""
import os


class Fault(Exception):
    """A file that can't be read or written, in a sentence."""


def read(name):
    try:
        with open(0 if name == "-" else name, "rb", closefd=name != "-") as file:
            return file.read()
    except OSError as error:
        raise Fault("cannot read %s: %s" % (name, error.strerror)) from None


def refuse_overwriting(name):
    """Raises a fault where a file has this name. What is no file, as a device or a pipe, may be written to."""
    if name != "-" and os.path.isfile(name):
        raise Fault("%s is there already; -f overwrites it" % name)


def write(name, data):
    """Writes the whole file, or leaves what was there. What is no file, as a device or a pipe, is written to as it is."""
    waiting = None
    try:
        target = os.path.realpath(name)
        if name == "-" or (os.path.exists(target) and not os.path.isfile(target)):
            with open(1 if name == "-" else target, "wb", closefd=name != "-") as out:
                out.write(data)
            return
        beside = os.path.join(os.path.dirname(target), ".redline.%d.part" % os.getpid())
        with open(beside, "xb") as out:
            waiting = beside
            out.write(data)
        os.replace(waiting, target)
        waiting = None
    except OSError as error:
        raise Fault("cannot write %s: %s" % (name, error.strerror)) from None
    finally:
        if waiting:
            os.unlink(waiting)
