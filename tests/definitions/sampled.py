#!/usr/bin/env python3
"""Tests the project's written definitions on random small rows: what document 01 makes of them, worked out by reading.py, is
claimed of the definitions in one table, as crates/rules/specs/Worked.antt claims it of the rows worked by hand, and rt must
prove that claim and refuse it with one number changed.   sampled.py [--seed S] [--rows N] [--damaged N] [--changed N]"""
import argparse, os, random, re, shutil, subprocess, sys, tempfile, time

sys.dont_write_bytecode = True
import reading
import samples


def listed(numbers):
    return '(' + ''.join(f'{number} ∷ ' for number in numbers) + '[])'


def checked(data):
    """What check must answer."""
    try:
        return len(reading.read(data).cells)
    except reading.Refused as refused:
        return refused.answer()


def facts_of(r, data):
    """The facts of a row that is not refused, as Worked.antt writes them."""
    row = reading.read(data)
    length, sites = reading.shortest(row)
    benches = list(reading.benches(row))
    steps, carried = len(benches) - 1, benches[-1][3]
    assert steps <= max(0, 3 * len(row.cells) - 1)
    facts = [f'answers {len(row.cells)}', f'stands {listed(sites)} {length}', f'takes_steps {steps}', f'carries {carried}']
    after, budget = r.randint(0, steps), r.choice([0, 1, 2, 3, 50])
    facts.append(f'begins {after} {listed(reading.bench_bytes(benches[after]))}')
    taken = min(budget, steps - after)
    facts.append(f'slices {after} {budget} {2 * taken + (after + taken == steps)}')
    return facts


def sample(seed, rows, damaged):
    """Rows with their facts: sound rows first, then damaged ones, in which no refusal may be rare."""
    r = random.Random(seed)
    table = []
    while len(table) < rows:
        data = b''.join(samples.records(r))
        table.append((data, facts_of(r, data)))
    seen = {}
    while len(table) < rows + damaged:
        data = samples.damaged(r)
        kind = (checked(data) >> 32) % 2**31
        if seen.get(kind, 0) <= damaged // 7:
            seen[kind] = seen.get(kind, 0) + 1
            table.append((data, [f'answers {checked(data)}']))
    return table


def table_text(table):
    entries = []
    for data, facts in table:
        row = ' ∷ '.join([str(byte) for byte in data] + ['[]'])
        entries.append(f'record {{ row = {row}; facts = {" ∷ ".join(facts + ["[]"])} }}')
    return 'pub table : List Worked\ntable =\n    ' + '\n    ∷ '.join(entries + ['[]']) + '\n'


def sampled_text(worked, table):
    """Worked.antt with another table. One kind of fact is added, so that a refusal is compared as the number it is."""
    rows = re.findall(r'^([\w-]+) : List ℕ\n\1 =\n', worked, re.M)
    text = re.sub(r'(^--[^\n]*\n)*^([\w-]+) : List ℕ\n\2 =\n([^\n]+\n)+\n', '', worked, flags=re.M)
    text = re.sub(r'^pub table : List Worked\n([^\n]+\n)+', lambda _: table_text(table), text, flags=re.M)
    text = text.replace('  refused_by : Refusal', '  answers : ℕ → Fact\n  refused_by : Refusal', 1)
    text = text.replace('holds row (refused_by', 'holds row (answers k) = eqb (check_call row).answer k\nholds row (refused_by', 1)
    head, unfolded = text.split('\nunfolding\n')
    names = [name for name in unfolded.split('\nworked = ')[0].split() if name not in rows]
    lines = ['  ' + ' '.join(names[at:at + 10]) for at in range(0, len(names), 10)]
    return head + '\nunfolding\n' + '\n'.join(lines) + '\nworked = refl\n'


def needed(repository, name):
    """The lines of crates.txt for a crate and all that it depends on."""
    with open(os.path.join(repository, 'crates.txt')) as listing:
        lines = dict(line.split(':', 1) for line in listing if ':' in line and not line.startswith('#'))
    found, wanted = set(), [name]
    while wanted:
        crate = wanted.pop()
        if crate not in found:
            found.add(crate)
            wanted += lines[crate].split()
    return {crate: deps.strip() for crate, deps in lines.items() if crate in found}


def copy(repository, folder):
    crates = needed(repository, 'rules')
    with open(os.path.join(folder, 'crates.txt'), 'w') as listing:
        listing.writelines(f'{crate}: {deps}'.rstrip() + '\n' for crate, deps in crates.items())
    for crate in crates:
        shutil.copytree(os.path.join(repository, 'crates', crate), os.path.join(folder, 'crates', crate))
    with open(os.path.join(folder, 'crates/rules/specs/Lib.antt'), 'a') as lib:
        lib.write('pub mod Sampled\n')
    with open(os.path.join(folder, 'crates/rules/specs/Worked.antt')) as worked:
        return worked.read()


def proved(folder, text):
    """Whether rt proves this Sampled.antt, and what it said."""
    with open(os.path.join(folder, 'crates/rules/specs/Sampled.antt'), 'w') as file:
        file.write(text)
    ran = subprocess.run(['rt', 'check'], cwd=os.path.join(folder, 'crates/rules'), stdout=subprocess.PIPE, stderr=subprocess.STDOUT, text=True)
    said = ran.stdout.strip()
    return re.search('^logic=proved', said, re.M) is not None and ran.returncode == 0, said


def changed(r, table, kind):
    """The table with one number of one fact of this kind made greater by one, and the fact as it was."""
    at, fact = r.choice([(at, fact) for at, (_, facts) in enumerate(table) for fact in facts if fact.startswith(kind)])
    *rest, number = fact.split(' ')
    if kind == 'begins':
        other = fact.replace('66 ∷ 78', '66 ∷ 79')
    else:
        other = ' '.join(rest + [str(int(number) + 1)])
    data, facts = table[at]
    return table[:at] + [(data, [other if one == fact else one for one in facts])] + table[at + 1:]


def main():
    ask = argparse.ArgumentParser(description=__doc__)
    ask.error = lambda fault: ask.exit(2, f'sampled: {fault}\n')
    ask.add_argument('--seed', type=int, default=1)
    ask.add_argument('--rows', type=int, default=40)
    ask.add_argument('--damaged', type=int, default=40)
    ask.add_argument('--changed', type=int, default=3, help='tables with one number changed, at most 6')
    ask.add_argument('--repository', default=os.path.join(os.path.dirname(os.path.abspath(__file__)), '..', '..'))
    asked = ask.parse_args()
    started = time.time()
    table = sample(asked.seed, asked.rows, asked.damaged)
    facts = sum(len(facts) for _, facts in table)
    with tempfile.TemporaryDirectory() as folder:
        worked = copy(asked.repository, folder)
        holds, said = proved(folder, sampled_text(worked, table))
        if not holds:
            print(said[-4000:])
            print(f'definitions: NOT PROVED, seed {asked.seed}: {len(table)} rows, {facts} facts')
            return 1
        r = random.Random(asked.seed)
        kinds = r.sample(['stands', 'takes_steps', 'carries', 'begins', 'slices', 'answers'], asked.changed)
        for kind in kinds:
            holds, said = proved(folder, sampled_text(worked, changed(r, table, kind)))
            if holds or 'Sampled' not in said:
                print(said[-4000:])
                print(f'definitions: with a wrong number in {kind} the table was NOT REFUSED, seed {asked.seed}')
                return 1
    print(f'definitions: seed {asked.seed}, {len(table)} rows with {facts} facts proved, changed {", ".join(kinds)} refused ({time.time() - started:.0f} s)')
    return 0


if __name__ == '__main__':
    sys.exit(main())
