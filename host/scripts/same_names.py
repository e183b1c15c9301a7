"""same_names.py APFS IMAGE..: holds the listings of the tool APFS against what fsapfsinfo shows of the same images."""
import hashlib
import os
import re
import subprocess
import sys
import tempfile

VOLUME = re.compile(r"^/\{[0-9a-f-]{36}\}(/.*)$")


def text(word):
    return bytes.fromhex(word[1:]).decode()


def listed(tool, image):
    """Of each node its path, id and, of a file that can be read, its bytes' MD5, in the listing's order."""
    lines = subprocess.run([tool, "list", image], check=True, capture_output=True, text=True).stdout.split("\n")
    names, nodes = [], []
    for words in (line.split(" ") for line in lines):
        match words[0]:
            case "(entry":
                names.append(text(words[4]))
            case "(node":
                names.append(None)
                path = "/" + "/".join(n for n in names if n is not None)
                nodes.append([path, words[1], None, int(words[13]) >> 12 == 8])
            case "(data":
                nodes[-1][2] = hashlib.md5(bytes.fromhex(words[1][1:-1])).hexdigest()
            case ")":
                # The volume's own comes last.
                names.pop() if names else None
    return [(path, inode, md5 if regular else None) for path, inode, md5, regular in nodes]


def hierarchy(image):
    out = subprocess.run(["fsapfsinfo", "-H", image], check=True, capture_output=True, text=True).stdout
    return [m.group(1) for m in map(VOLUME.match, out.split("\n")) if m]


def body(image):
    """The MD5 of each path and id, or none where fsapfsinfo gives up on one of them."""
    with tempfile.TemporaryDirectory() as folder:
        file = os.path.join(folder, "body")
        run = subprocess.run(["fsapfsinfo", "-d", "-H", "-B", file, image], capture_output=True)
        if run.returncode != 0 or b"Unable" in run.stdout + run.stderr:
            return None
        with open(file, encoding="utf-8") as lines:
            parts = [line.rsplit("|", 9) for line in lines]
    return {(VOLUME.match(p[0].split("|", 1)[1]).group(1), p[1]): p[0].split("|", 1)[0] for p in parts}


def main(tool, images):
    names = files = whole = differ = 0
    for image in images:
        ours, theirs = listed(tool, image), hierarchy(image)
        names += len(theirs)
        if [path for path, _, _ in ours] != theirs:
            differ += 1
            print(f"{image}: {[p for p, _, _ in ours]}\nnot {theirs}")
        bodies = body(image)
        if bodies is not None:
            whole += 1
            mine = {(path, inode): md5 for path, inode, md5 in ours if md5}
            files += len(mine)
            wrong = [at for at in mine if bodies.get(at) != mine[at]]
            if wrong:
                differ += 1
                print(f"{image}: the bytes of {wrong}")
    print(f"{len(images)} sticks, {names} names at their places; {files} files' bytes on {whole} of the sticks; {differ} differ")
    return 1 if differ or not names or not files else 0


if __name__ == "__main__":
    sys.exit(main(sys.argv[1], sys.argv[2:]))
