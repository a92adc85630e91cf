#!/usr/bin/env python3
"""What each product contains: neither half of the library contains the other, and the planning calls, the writer of records and the programs contain neither.

crates.txt decides it. rt hands a crate the crates of its line alone, and a source that names another one is refused ("use of undeclared crate or module"), so a
product has code of the crates that its line reaches and of no other. Symbols in an archive would not show it: the compiler inlines most functions.

Every crate is in one group of GROUPS, and each product reaches crates of the groups beside it in PRODUCTS alone. A crate that is in no group fails, so a new
one cannot slip past. The table "What each half needs" of README.md is held to the same lines. Then the script tests itself: each of EDITS, made in copies of
the two files in memory, must fail for the reason beside it.
"""
import re
import sys

from sources import TOP, Refused, closure, crate_lines

CRATES, README = 'crates.txt', 'README.md'

GROUPS = {
    'base': 'spec laws planning_laws rules refusals v1_rules lengths buffers job host_words',
    'planning': 'challenge planning plan_refusals',
    'decode and plan': 'shape shape_host',
    'primitives': 'aes_steps aes_keys keyed_schedule aes generator keccak shake field leaf_hash',
    'vectors': 'tree leaf columns rows vector',
    'signing': 'signer_refusals signer_tree signer_vectors signer_commit opening signer_open signer signer_host',
    'signing of version 1': 'signer_forest v1_opening v1_signer v1_signer_host',
    'slots': 'slots',
    'checking': 'verifier_refusals verifier_tree verifier_vector verifier_vectors reconstruction verifier verifier_host',
    'checking of version 1': 'verifier_forest v1_verifier v1_verifier_host',
    'records': 'record record_fields record_reader record_reading named_sets',
    'broker': 'record_check broker named_broker broker_host',
    'writer': 'record_writer writer_host',
    'texts': 'listing_line listing_text program_streams',
    'listings': 'listing list_nodes enumeration_text enumeration list_challenges',
    'report': 'report_text report report_openings',
    'claims': 'standards standards_levels theorems record_theorems',
    'tests': 'round_trip round_trip_report run_round_trip v1_round_trip test_support case_text vectors_calls vectors_probes record_cases run_cases '
             'vectors vectors_stretches vectors_records v1_vectors list_nodes_runs list_challenges_runs report_runs bench_exports',
}
PRODUCTS = {
    'shape_host': ['base', 'planning', 'decode and plan'],
    'signer_host': ['base', 'planning', 'primitives', 'vectors', 'signing'],
    'verifier_host': ['base', 'planning', 'primitives', 'vectors', 'slots', 'checking'],
    'broker_host': ['base', 'planning', 'primitives', 'vectors', 'slots', 'checking', 'records', 'broker'],
    'writer_host': ['base', 'records', 'writer'],
    'v1_signer_host': ['base', 'planning', 'primitives', 'vectors', 'signing', 'signing of version 1'],
    'v1_verifier_host': ['base', 'planning', 'primitives', 'vectors', 'checking', 'checking of version 1'],
    'report_openings': ['base', 'planning', 'slots', 'records', 'texts', 'report'],
    'list_nodes': ['base', 'planning', 'decode and plan', 'texts', 'listings'],
    'list_challenges': ['base', 'planning', 'texts', 'listings'],
}
# by which name the table of README.md excludes a half, of either version
HALVES = {'signing': 'signer..', 'checking': 'verifier..'}


def groups(needs):
    """The group of each crate."""
    found = {}
    for group, crates in GROUPS.items():
        for crate in crates.split():
            if found.setdefault(crate, group) != group:
                raise Refused(f'{crate} is in two groups')
    if set(found) != set(needs):
        raise Refused('in no group, or no crate: ' + ', '.join(sorted(set(found) ^ set(needs))))
    return found


def check_products(needs, group):
    faults = [f'{product} contains {crate} of the group {group[crate]}' for product, allowed in PRODUCTS.items()
              for crate in sorted(closure(needs, [product])) if group[crate] not in allowed]
    if faults:
        raise Refused('\n'.join(faults))


def check_readme(needs, group, text):
    """Each row: the crate, what it needs, and what it does not contain, where `name..` is every crate whose name begins so."""
    rows = [line.split('|')[2:5] for line in text.split('## What each half needs')[1].split('\n## ')[0].splitlines() if line.startswith('| ')][1:]
    for columns in rows:
        (crate,), wanted, excluded = (re.findall(r'`(\w+\.*)`', column) for column in columns)
        within = closure(needs, [crate])
        for name in wanted:
            if name not in within:
                raise Refused(f'README.md: {crate} does not need {name}')
        for name in excluded:
            if any(c == name or name.endswith('..') and c.startswith(name[:-2]) for c in within):
                raise Refused(f'README.md: {crate} contains {name}')
        for half, name in HALVES.items():
            if (name in excluded) != all(group[c] not in (half, half + ' of version 1') for c in within):
                raise Refused(f'README.md: whether {crate} contains the {half} half is not as it says')
    return len(rows)


def check(texts):
    needs = crate_lines(texts[CRATES])
    group = groups(needs)
    check_products(needs, group)
    rows = check_readme(needs, group, texts[README])
    return f'{len(needs)} crates in {len(GROUPS)} groups, {len(PRODUCTS)} products, {rows} rows of README.md'


# the end of the reason, and an edit: the file, what stands in it, in crates.txt at the front of a line, and what is put in its place
EDITS = [
    ('verifier_host contains signer_tree of the group signing', CRATES, 'verifier_vectors: spec', 'verifier_vectors: signer_tree spec'),
    ('broker_host contains opening of the group signing', CRATES, 'broker: spec', 'broker: opening spec'),
    ('signer_host contains verifier_vector of the group checking', CRATES, 'signer_vectors: spec', 'signer_vectors: verifier_vector spec'),
    ('broker_host contains record_writer of the group writer', CRATES, 'record_reading: spec', 'record_reading: record_writer spec'),
    ('writer_host contains broker of the group broker', CRATES, 'record_writer: spec', 'record_writer: broker spec'),
    ('report_openings contains reconstruction of the group checking', CRATES, 'report: spec', 'report: reconstruction spec'),
    ('shape_host contains aes of the group primitives', CRATES, 'planning: spec', 'planning: aes spec'),
    ('v1_signer_host contains verifier_forest of the group checking of version 1', CRATES, 'v1_opening: spec', 'v1_opening: verifier_forest spec'),
    ('v1_signer_host contains verifier_vector of the group checking', CRATES, 'signer_forest: spec', 'signer_forest: verifier_vector spec'),
    ('v1_verifier_host contains signer_forest of the group signing of version 1', CRATES, 'verifier_forest: spec', 'verifier_forest: signer_forest spec'),
    ('v1_verifier_host contains v1_opening of the group signing of version 1', CRATES, 'v1_verifier: spec', 'v1_verifier: v1_opening spec'),
    ('signer_host contains v1_opening of the group signing of version 1', CRATES, 'signer_open: spec', 'signer_open: v1_opening spec'),
    ('in no group, or no crate: signer_cache', CRATES, 'signer_host staticlib: spec', 'signer_cache: spec\nsigner_host staticlib: signer_cache spec'),
    ('in no group, or no crate: writer_host', CRATES, 'writer_host staticlib: ', '#'),
    ('whether broker contains the signing half is not as it says', README, '`record_check` | a crate named `signer..`', '`record_check` | a crate named'),
    ('signer contains opening', README, 'a crate named `verifier..`, `reconstruction`', 'a crate named `verifier..`, `opening`'),
    ('whether v1_verifier contains the signing half is not as it says', README, 'a crate named `signer..`, `v1_signer`', 'a crate named `v1_signer`'),
    ('record_writer does not need planning', README, '| `record_writer` | ', '| `record_writer` | `planning`, '),
]


def edited(texts, name, old, new):
    text, found = re.subn((r'(?m)^' if name == CRATES else '') + re.escape(old), lambda _: new, texts[name])
    if found != 1:
        sys.exit(f'products: the place of an edit is not in {name}: {old}')
    return {**texts, name: text}


def main():
    texts = {name: (TOP / name).read_text(encoding='utf-8') for name in (CRATES, README)}
    print('products:', check(texts))
    for reason, *edit in EDITS:
        try:
            check(edited(texts, *edit))
        except Refused as why:
            if not any(line.endswith(reason) for line in str(why).split('\n')):
                sys.exit(f'products: {edit} is refused for another reason: {why}')
        else:
            sys.exit(f'products: {edit} is not refused')
    print(f'products: {len(EDITS)} edits refused, as they must be')


if __name__ == '__main__':
    try:
        main()
    except Refused as why:
        sys.exit(f'products: {why}')
