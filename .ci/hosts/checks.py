"""What the tests of the library in Python count: each comparison, and those that are wrong."""

import subprocess

compared = failed = 0


def wants(name, got, wanted):
    """Compares, and prints what differs."""
    global compared, failed
    compared += 1
    if got != wanted:
        failed += 1
        print(f"FAILED: {name}:\n  {got!r}\n  wanted\n  {wanted!r}")


def curl(url, *words, given=b""):
    """The status and the text of a server's answer."""
    done = subprocess.run(["curl", "-sS", "--max-time", "30", "-w", "\n%{http_code}", *words, url], input=given, stdout=subprocess.PIPE, check=False)
    text, _, status = done.stdout.decode().rpartition("\n")
    return int(status), text


def ended():
    """Prints the counts; the exit status, which is 1 where a comparison is wrong, or none was made."""
    print(f"{compared} compared, {failed} wrong")
    return int(failed != 0 or compared == 0)
