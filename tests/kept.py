"""Files that a script makes: written, or compared with those that are kept."""
from tally import Tally


def name_of(path):
    return f"{path.parent.name}/{path.name}"


def write(files):
    for path, contents in files.items():
        path.write_bytes(contents)
        print(f"{len(contents):7} bytes  {name_of(path)}")
    return 0


def check(files):
    tally = Tally()
    for path, contents in files.items():
        kept = path.read_bytes() if path.is_file() else None
        tally.holds(name_of(path), kept == contents,
                    "is not what this script makes")
    return tally.end()


def run(files, arguments, usage):
    """Writes the files {path: contents}, or checks them; the exit status."""
    if arguments == []:
        return write(files)
    if arguments == ["--check"]:
        return check(files)
    return usage
