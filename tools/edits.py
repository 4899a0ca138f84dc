#!/usr/bin/env python3
"""Tries the edits of edits/NAME beside those of crates/NAME/must-fail, by `rt must-fail NAME`.

    tools/edits.py NAME..
    tools/edits.py --since REVISION
    tools/edits.py --all

They are bugs that the contracts of a crate have to refuse, as those in must-fail/ are, which the gate tries. Trying a crate's first
edit costs a second proof of the whole crate, so those of the dearest crates stand here and are tried by hand, when the crate changes:
`--since` tries those of each crate whose files differ from that revision's, and `--all` tries all, as before a release. It says of
each crate how long it took, and ends with 1 where an edit isn't refused.
"""
import pathlib, shutil, subprocess, sys, time


def tried(name):
    """Whether all edits of the crate are refused."""
    folder = pathlib.Path('crates', name, 'must-fail')
    is_new = not folder.exists()
    folder.mkdir(exist_ok=True)
    lent = [pathlib.Path(shutil.copy(edit, folder)) for edit in sorted(pathlib.Path('edits', name).glob('*.edit'))]
    begun = time.time()
    try:
        is_well = subprocess.run(['rt', 'must-fail', name]).returncode == 0
    finally:
        for edit in lent:
            edit.unlink()
        if is_new:
            folder.rmdir()
    print(f'{name}: {len(lent)} edits {"refused" if is_well else "NOT ALL REFUSED"}, {time.time() - begun:.0f} s', flush=True)
    return is_well


def changed(revision):
    """The crates whose files differ from those of a revision."""
    said = subprocess.run(['git', 'diff', '--name-only', revision, '--', 'crates', 'edits'], check=True, capture_output=True, text=True)
    return {pathlib.PurePath(line).parts[1] for line in said.stdout.splitlines()}


def main():
    words, there = sys.argv[1:], sorted(it.name for it in pathlib.Path('edits').iterdir())
    if words == ['--all']:
        names = there
    elif len(words) == 2 and words[0] == '--since':
        names = [it for it in there if it in changed(words[1])]
    else:
        names = words
    if not words or not all(it in there for it in names):
        sys.exit(__doc__)
    results = [tried(name) for name in names]
    return 0 if all(results) else 1


if __name__ == '__main__':
    sys.exit(main())
