#!/usr/bin/env python3
"""plant.py [--jobs N] [--keep FILE] [--minutes N] [CRATE ..]: plants the bugs of planted.txt one at a time in copies of this repository, and tells
whether `rt check` refuses each. With no CRATE it writes docs/PLANTED.md. What FILE keeps of an earlier run over the same crate and those below is
not tried again, and after so many minutes no further edit is begun. Status 1 if an edit is bad or not tried, or is not refused and
planted.txt gives no reason why it changes nothing."""
import argparse, hashlib, json, os, pathlib, queue, re, shutil, subprocess, sys, tempfile, threading, time

ROOT = pathlib.Path(__file__).resolve().parent.parent
PLANTED = ROOT / 'reference' / 'planted.txt'
TABLE = ROOT / 'docs' / 'PLANTED.md'
SECONDS = 600
# a file of src/ with line and column, and what is said of it
PLACE = re.compile(r'(?:note: )?(src/\S+?\.rt):(\d+):\d+: (.*)')
ANYWHERE = re.compile(r'(?:note: )?(?:\./)?((?:src|specs|proofs)/\S+?):(\d+):\d+: (.*)')
# a proof file that names what the edit took away says nothing of the contract
LOST_NAME = re.compile(r'has no field|is not in scope|has no `|was not admitted')
UNREADABLE = re.compile(r'is not in scope|has no field|is no name|operand is missing|expected the end|cannot continue')


class Planted:
    def __init__(self, words):
        self.file, self.kind, self.old, self.new = (words[it] for it in ('file', 'kind', 'old', 'new'))
        self.why = words.get('why', '')
        self.crate = self.file.split('/')[1]
        # how it ended (refused, survived or bad), where, by which clause of which function, and what the checker said
        self.end, self.place, self.clause, self.said = '', '', '', ''

    def spoil(self, said):
        self.end, self.said = 'bad', said


def read_planted():
    found = []
    for block in PLANTED.read_text(encoding='utf-8').split('\n\n'):
        lines = [it for it in block.split('\n') if it and not it.startswith('#')]
        if lines:
            found.append(Planted(dict(it.split(': ', 1) for it in lines)))
    return found


def link_or_copy(start, to):
    try:
        os.link(start, to)
    except OSError:
        shutil.copy2(start, to)


def copy_repository(to):
    """Copies what a check reads. What is kept in out/ is linked: rt puts new files in the place of old ones, and writes into none."""
    for name in ('crates.txt', 'HANDLES'):
        if (ROOT / name).exists():
            shutil.copy2(ROOT / name, to / name)
    for crate in (ROOT / 'crates').iterdir():
        shutil.copytree(crate, to / 'crates' / crate.name, ignore=shutil.ignore_patterns('out'))
        if (crate / 'out').is_dir():
            shutil.copytree(crate / 'out', to / 'crates' / crate.name / 'out', copy_function=link_or_copy, symlinks=True,
                            ignore=shutil.ignore_patterns('rt-*'))


def write_anew(path, text):
    room = path.with_name(path.name + '.new')
    room.write_text(text, encoding='utf-8')
    os.replace(room, path)


def check(folder, crate, jobs):
    words = ['rt', 'check', '--jobs', str(jobs)]
    try:
        ran = subprocess.run(words, cwd=folder / 'crates' / crate, stdin=subprocess.DEVNULL, stdout=subprocess.PIPE,
                             stderr=subprocess.STDOUT, text=True, errors='replace', timeout=SECONDS)
    except subprocess.TimeoutExpired:
        return -1, [f'no verdict in {SECONDS} seconds']
    return ran.returncode, ran.stdout.split('\n')


def verdict(lines):
    return next((it for it in reversed(lines) if it.startswith('logic=')), '')


def judge(planted, status, lines):
    logic = verdict(lines)
    if status == 0 and logic.startswith('logic=proved'):
        planted.end = 'survived'
        return
    told = [it for it in lines if ANYWHERE.match(it) and (it.startswith('note: src/') or ': error' in it)]
    unread = next((it for it in told if PLACE.match(it) and not it.startswith('note: ') and UNREADABLE.search(re.sub('`[^`]*`', '', it))), '')
    if status != 1 or not logic.startswith('logic=not-proved') or unread:
        planted.spoil(unread or next((it for it in lines if 'error' in it), '') or ' / '.join(lines[:4]))
        return
    told = [it for it in told if PLACE.match(it) or not LOST_NAME.search(it)]
    first = next((it for it in told if PLACE.match(it)), told[0] if told else '')
    if not first:
        planted.spoil('refused only by a proof file that names what is gone: ' + next((it for it in lines if 'proofs/' in it), ''))
        return
    file, line, said = ANYWHERE.match(first).groups()
    planted.end, planted.place, planted.said = 'refused', f'{file}:{line}', said
    if file.startswith('proofs/'):
        planted.clause = 'a proof does not fit any more: ' + said.removeprefix('error: ').split(':')[0][:70]
        return
    goal = re.search(r'\(`([^`]*)`\)', said)
    planted.clause = fact_of(said, goal[1] if goal else '')


def fact_of(said, goal):
    """Which clause is not proved, or which other fact."""
    if '-clause' in goal:
        return 'clause ' + goal.rsplit('-clause', 1)[1].strip('-')
    if goal.startswith('returns'):
        return 'its one clause'
    return re.sub(r'^error: |it is not proved that | ?\(`.*', '', said)[:90]


class Kept:
    """How edits ended in earlier runs, by the edit and a sum of every file that a check of its crate reads."""

    def __init__(self, path):
        self.path, self.known, self.sums = path, {}, {}
        uses = dict(it.split(':') for it in (ROOT / 'crates.txt').read_text().split('\n') if ':' in it.split('#')[0])
        self.uses = {it.split()[0]: uses[it].split() for it in uses}
        if path and os.path.isfile(path):
            with open(path, encoding='utf-8') as file:
                for line in file:
                    said = json.loads(line)
                    self.known[said['key']] = said

    def sum_of(self, crate):
        if crate not in self.sums:
            found = hashlib.sha256(''.join(self.sum_of(it) for it in self.uses.get(crate, [])).encode())
            folder = ROOT / 'crates' / crate
            for it in sorted([*folder.glob('src/**/*.rt'), *folder.glob('specs/**/*.antt'), *folder.glob('proofs/**/*.antt')]):
                found.update(f'{it.relative_to(ROOT)}\n'.encode() + it.read_bytes())
            self.sums[crate] = found.hexdigest()
        return self.sums[crate]

    def key(self, planted):
        return '\n'.join((self.sum_of(planted.crate), planted.file, planted.old, planted.new))

    def take(self, planted):
        said = self.known.get(self.key(planted))
        if not said:
            return False
        planted.end, planted.place, planted.clause, planted.said = (said[it] for it in ('end', 'place', 'clause', 'said'))
        return True

    def put(self, planted):
        if self.path and planted.end in ('refused', 'survived'):
            said = {it: getattr(planted, it) for it in ('end', 'place', 'clause', 'said')}
            with open(self.path, 'a', encoding='utf-8') as file:
                file.write(json.dumps({'key': self.key(planted), **said}) + '\n')


class Crates:
    """Whether each crate is proved as it stands: else a refusal would say nothing."""

    def __init__(self, jobs):
        self.jobs, self.locks, self.known = jobs, {}, {}
        self.lock = threading.Lock()

    def is_proved(self, folder, crate):
        with self.lock:
            mine = self.locks.setdefault(crate, threading.Lock())
        with mine:
            if crate not in self.known:
                status, lines = check(folder, crate, self.jobs)
                self.known[crate] = status == 0 and verdict(lines).startswith('logic=proved')
        return self.known[crate]


def try_one(planted, folder, crates):
    path = folder / planted.file
    was = path.read_text(encoding='utf-8') if path.is_file() else ''
    if was.count(planted.old) != 1 or planted.old == planted.new:
        planted.spoil(f'the old text stands {was.count(planted.old)} times in the file')
        return
    if not crates.is_proved(folder, planted.crate):
        planted.spoil('the crate is not proved as it stands')
        return
    write_anew(path, was.replace(planted.old, planted.new))
    try:
        judge(planted, *check(folder, planted.crate, crates.jobs))
    finally:
        write_anew(path, was)


def short(planted):
    """What was exchanged for what, without what both begin and end with."""
    old, new = planted.old.strip(), planted.new.strip()
    if max(len(old), len(new)) > 64:
        front = len(os.path.commonprefix([old, new]))
        back = len(os.path.commonprefix([old[front:][::-1], new[front:][::-1]]))
        front, back = max(0, front - 16), max(0, back - 16)
        ends = '…' if front else '', '…' if back else ''
        old, new = (f'{ends[0]}{it[front:len(it) - back]}{ends[1]}' for it in (old, new))
    return ' → '.join('`' + it.replace('|', '\\|').replace('`', "'") + '`' for it in (old, new))


def outcome(planted):
    if planted.end == 'refused':
        return f'`{planted.place}`, {planted.clause}'.replace('|', '\\|')
    if planted.end == 'survived':
        return f'survives: {planted.why}' if planted.why else '**not refused**'
    return f'**bad**: {planted.said[:160]}'.replace('|', '\\|') if planted.end else 'not tried yet'


def sums(found):
    refused = sum(it.end == 'refused' for it in found)
    same = sum(it.end == 'survived' and bool(it.why) for it in found)
    holes = sum(it.end == 'survived' and not it.why for it in found)
    bad = sum(it.end == 'bad' for it in found)
    said = f'{len(found)} planted, {refused} refused, {same} change nothing, {holes} holes'
    untried = sum(not it.end for it in found)
    said += (f', {bad} bad' if bad else '') + (f', {untried} not tried' if untried else '')
    return said, bool(holes or bad or untried)


def write_table(found):
    lines = ['# Planted bugs', '',
             'Each bug of `reference/planted.txt` was planted alone, and `rt check` run in its crate (`python3 reference/plant.py`). '
             'The last column says where the check refused it, and by which clause, or why it changes no answer and no byte.', '',
             f'**{sums(found)[0]}**', '',
             '| Crate | File | Kind | Planted | Refused at |', '|---|---|---|---|---|']
    for it in found:
        lines.append(f'| {it.crate} | {it.file.split("/src/", 1)[1]} | {it.kind} | {short(it)} | {outcome(it)} |')
    TABLE.write_text('\n'.join(lines) + '\n', encoding='utf-8')


def main():
    given = argparse.ArgumentParser(description=__doc__)
    given.add_argument('--jobs', type=int, default=1)
    given.add_argument('--keep', metavar='FILE')
    given.add_argument('--minutes', type=float)
    given.add_argument('crates', nargs='*')
    given = given.parse_args()
    kept = Kept(given.keep)
    found = [it for it in read_planted() if not given.crates or it.crate in given.crates]
    waiting = queue.Queue()
    for it in found:
        if not kept.take(it):
            waiting.put(it)
    number = waiting.qsize()
    crates = Crates(max(1, (os.cpu_count() or 1) // given.jobs))
    done, saying = [], threading.Lock()

    end = float('inf') if given.minutes is None else time.monotonic() + 60 * given.minutes

    def work(folder):
        if waiting.empty() or time.monotonic() >= end:
            return
        copy_repository(folder)
        while time.monotonic() < end:
            try:
                planted = waiting.get_nowait()
            except queue.Empty:
                return
            try:
                try_one(planted, folder, crates)
            except Exception as error:
                planted.spoil(f'{type(error).__name__}: {error}')
            with saying:
                done.append(planted)
                kept.put(planted)
                print(f'{len(done)}/{number} {planted.end}: {planted.file}: {short(planted)}: {outcome(planted)} {planted.said}', flush=True)

    # best on the repository's own disk (TMPDIR), so that links reach
    with tempfile.TemporaryDirectory(prefix='plant-') as room:
        folders = [pathlib.Path(room) / str(it) for it in range(given.jobs)]
        for folder in folders:
            folder.mkdir()
        threads = [threading.Thread(target=work, args=(it,)) for it in folders]
        for it in threads:
            it.start()
        for it in threads:
            it.join()
    if not given.crates:
        write_table(found)
    said, is_wrong = sums(found)
    print(said)
    return int(is_wrong)


if __name__ == '__main__':
    sys.exit(main())
