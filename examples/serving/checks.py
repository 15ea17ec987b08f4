"""Reports checks, a line for each, and counts those that fail."""
failed = 0


def check(what, is_right, told=""):
    global failed
    failed += not is_right
    print(f"{'ok   ' if is_right else 'WRONG'} {what}{f': {told}' if told else ''}", flush=True)


def status():
    """The exit status of a script."""
    return 1 if failed else 0
