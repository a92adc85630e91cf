#!/usr/bin/env python3
"""Document 02, E8: tree, plan and matrices are shared by the leaf kinds, and their proofs do not mention the kind.

A file of crates/*/{src,specs,proofs} mentions the kind if one of the names or words of it stands in the file or in its path: `kind` and what is made with it
(`.kind`, `kind_fits`, `kind-max`), `ordinary` (`is_ordinary`, `ordinary-seed`), Even-Mansour, `em_leaf`, `em-seed`, FAEST-EM. A file also mentions it that
unfolds a definition of spec that looks at it, as `leaf_commitment_bytes`, on a line of a proof or in the attribute of a function. The module
planning_laws/proofs/LeafKindFacts.antt has what others cite instead, and its name alone is no mention: a proof may cite a fact from it whose name does not
mention the kind.

Version 1 has leaves of its own. Inside, its shapes have the kind whose leaf commitments are as long and take no hash key; that the kind fits the version is a
fact, `KindFits`, which the proofs of the vectors hand on and do not look into. HANDED has the files, or the folder of a function's proof, that may do that, and
in what words; these alone are no mention there.

MAY has the files that may mention it, each with the reason; any other that does fails, and so does an entry of either table for nothing. Then the script tests
itself: each of MORE, added to the files in memory, must fail, and each of FINE must not.
"""
import re
import sys

from sources import TOP, Refused

MENTION = re.compile(r'[A-Za-z_.-]*(?:kind|ordinary|mansour)[\w-]*|\bem[-_]\w+|-EM\b', re.I)
CITED = 'LeafKindFacts'
DEFINITIONS = ['spec/specs/Shapes.antt', 'spec/specs/Leaves.antt', 'spec/specs/Version1.antt']

# a file, or the beginning of several paths, and why it may mention the kind
MAY = {
    'spec/src/lib.rt': 'the field of a shape',
    'spec/specs/Shapes.antt': 'its definition, the default, the shape rules, the bytes of a leaf commitment',
    'spec/specs/Leaves.antt': 'the seed and the commitment of a leaf',
    'spec/specs/Version1.antt': 'the shapes of version 1 are of kind 0',
    'spec/proofs/': 'examples of the definitions, computed, and the kinds that are refused',
    'job/': 'which kind a shape has inside for each version, and the leaves of each version',
    'v1_rules/': 'the shape rules of version 1, and the kind of its shapes inside',
    'v1_signer/proofs/Written.antt': 'from the shape of the caller to the one inside, which has another kind',
    'v1_verifier/proofs/Written.antt': 'the same',
    'vector/proofs/InnerJob.antt': 'the same: a leaf commitment of version 1 has the bytes of that kind',
    'vector/proofs/LeafNodes.antt': 'the bytes of a leaf commitment of either version',
    'theorems/proofs/Version1.antt': 'a shape of version 1 is one of version 2: the definition unfolded',
    'rules/': 'the shape rules, the default, the bytes of a leaf commitment',
    'leaf/': 'the leaves of each kind, and the hash keys of ordinary ones',
    'leaf_hash/': 'the hash of ordinary leaves',
    'planning_laws/proofs/LeafKindFacts.antt': 'what other proofs cite, so that they need not see the kind',
    'record/': 'version 3 of a record has the kind',
    'record_fields/': 'the same',
    'record_reading/': 'the same',
    'record_writer/': 'the same',
    'record_theorems/': 'the same',
    'record_check/proofs/Answers.antt': 'the test of the kind among the others of a record',
    'report_text/proofs/Entries.antt': 'the same',
    'named_sets/': 'the sets of both kinds',
    'shape_host/src/': 'the six numbers of a shape from a C host',
    'signer_host/src/': 'the same',
    'verifier_host/src/': 'the same',
    'v1_signer_host/src/': 'the same',
    'v1_verifier_host/src/': 'the same',
    'writer_host/src/': 'the same',
    'listing_line/': 'the listing programs are of kind 0',
    'enumeration/src/': 'the same',
    'enumeration/proofs/Examples.antt': 'an example, computed: a shape written out',
    'report_text/proofs/Examples.antt': 'the same: the definitions of a shape unfolded',
    'standards/proofs/LongRowsExample.antt': 'the same: a shape written out',
    'standards/proofs/UnevenExample.antt': 'the same',
    'standards_levels/proofs/Level192Example.antt': 'the same',
    'standards_levels/proofs/Level256EmExample.antt': 'the same',
    'theorems/proofs/PlanningExamples.antt': 'the same',
    'bench_exports/src/': 'shapes written out',
    'run_round_trip/src/': 'the same',
    'case_text/src/': 'the six numbers of a shape of a case',
    'run_cases/src/': 'the same, and the version in which a record of the kind is written',
    'report_runs/src/': 'the same',
}

# a file, or the folder of a function's proof, that hands on the fact that the kind fits the version, and the words in which it does
HANDED = {
    'signer_commit/proofs/write_all/': 'kind = two_fits',
    'reconstruction/proofs/write_all/': 'kind = two_fits',
    'vector/proofs/add_leaf/': '.job.kind',
    'vector/proofs/add_half/': '.job.kind',
    'verifier_vector/proofs/convert/': '.job.kind',
    'verifier_vectors/proofs/hidden_from/': 'ready.kind',
    'verifier_vectors/proofs/HiddenPlaces.antt': 'KindFits',
}


def looking(texts):
    """The definitions that look at the kind, beside those that write a shape out; a definition ends at an empty line."""
    written = '\n\n'.join(re.sub(r'kind = \d', '', texts[path]) for path in DEFINITIONS)
    return {name for name, body in re.findall(r'(?ms)^(?:unfoldable|abbrev) pub (\w+) :(.*?)(?:\n\n|\Z)', written) if MENTION.search(body)}


def mentions(path, text, names):
    text = f'{path}\n{text}'.replace(CITED, '')
    handed = entry_of(path, HANDED)
    text = text.replace(HANDED[handed], '') if handed else text
    opened = re.findall(r'(?m)^ *unfolding (.*)$', text) + re.findall(r'\bunfolding\(([^)]*)\)', text)
    return MENTION.findall(text) + [name for line in opened for name in re.findall(r"[\w'-]+", line) if name in names]


def entry_of(path, table):
    return next((entry for entry in table if path == entry or entry.endswith('/') and path.startswith(entry)), None)


def check(texts):
    names = looking(texts)
    found = {path: mentions(path, text, names) for path, text in texts.items()}
    found = {path: words for path, words in found.items() if words}
    faults = [f'{path} mentions the leaf kind: {words[0]}' for path, words in sorted(found.items()) if entry_of(path, MAY) is None]
    handing = {entry_of(path, HANDED) for path, text in texts.items() if HANDED.get(entry_of(path, HANDED), '\0') in text}
    faults += [f'{entry} hands nothing on: {words}' for entry, words in HANDED.items() if entry not in handing]
    mentioning = {entry_of(path, MAY) for path in found}
    faults += [f'{entry} is in the table and does not mention the leaf kind' for entry in MAY if entry not in mentioning]
    if faults:
        raise Refused('\n'.join(faults))
    return f'{len(found)} of {len(texts)} files mention it, each by the table; {len(names)} definitions look at it: ' + ', '.join(sorted(names))


# a file, what is added to it, and what is named as the mention
MORE = [
    ('tree/proofs/expand_node/Answers.antt', 'by-leaf : (s : Shape) → ordinary s ≡ true → leaves s ≡ leaves s', 'ordinary'),
    ('planning_laws/proofs/Covered.antt', '-- the same for Even-Mansour leaves', 'Even-Mansour'),
    ('planning_laws/proofs/ShapeFacts.antt', '  pub most : s.kind ≤ 1', 's.kind'),
    ('planning/proofs/walk/Answers.antt', 'use Rattle.planning_laws.proofs.LeafKindFacts.{kind-max}', 'kind-max'),
    ('verifier_tree/src/lib.rt', '    if rules::is_ordinary(s) {', 'is_ordinary'),
    ('verifier_tree/src/lib.rt', '#[tactic(auto, unfolding(spec::specs::Shapes::leaf_commitment_bytes))]', 'leaf_commitment_bytes'),
    ('columns/proofs/ByKind.antt', '', 'ByKind'),
    ('signer_vectors/proofs/Steps.antt', 'unfolding leaf_commitment_bytes\n', 'leaf_commitment_bytes'),
    ('vector/proofs/add_half/Answers.antt', '    unfolding level shape_ok\n', 'shape_ok'),
    ('vector/proofs/add_leaf/Answers.antt', 'is-one = start.args.g.shape.kind', 'start.args.g.shape.kind'),
    ('verifier_vectors/proofs/HiddenPlaces.antt', 'unfolding shape1_ok\n', 'shape1_ok'),
    ('verifier_vectors/proofs/Steps.antt', 'use Rattle.job.specs.Versions.{KindFits}', 'KindFits'),
    ('theorems/proofs/Reconstruction.antt', 'cited = em-seed faest s', 'em-seed'),
    ('verifier_vectors/specs/Vectors.antt', '-- as in FAEST-EM', '-EM'),
]
FINE = [
    ('vector/proofs/add_half/Answers.antt', 'use Rattle.planning_laws.proofs.LeafKindFacts.{commitment-length}'),
    ('rows/proofs/add_row/Answers.antt', 'nearer b at from el em ee = omega arith'),
    ('signer_vectors/proofs/Steps.antt', 'unfolding entries_of\n'),
]


def main():
    files = sorted(f for part in ('src', 'specs', 'proofs') for f in (TOP / 'crates').glob(f'*/{part}/**/*') if f.is_file())
    texts = {f.relative_to(TOP / 'crates').as_posix(): f.read_text(encoding='utf-8') for f in files}
    print('leaf kind:', check(texts))
    for path, added, word in MORE:
        try:
            check({**texts, path: texts.get(path, '') + added})
        except Refused as why:
            if str(why) != f'{path} mentions the leaf kind: {word}':
                sys.exit(f'leaf kind: {path} with {added} is refused for another reason: {why}')
        else:
            sys.exit(f'leaf kind: {path} with {added} is not refused')
    for path, added in FINE:
        check({**texts, path: texts.get(path, '') + added})
    print(f'leaf kind: {len(MORE)} additions refused, as they must be, and {len(FINE)} allowed')


if __name__ == '__main__':
    try:
        main()
    except Refused as why:
        sys.exit(f'leaf kind: {why}')
