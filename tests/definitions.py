"""The crates' definitions without their code, and the prover over them: for what is about definitions alone."""
import glob, os, re, shutil, subprocess, sys

ROOT = os.path.dirname(os.path.dirname(os.path.abspath(__file__)))
CRATES = os.path.join(ROOT, 'crates')
KIT = os.path.dirname(os.path.dirname(os.path.realpath(shutil.which('rt') or sys.exit('rt, the command of the Rattle kit, is not on the PATH'))))
DEPENDS = {l.split(':')[0].split()[0]: l.split(':')[1].split() for l in open(os.path.join(ROOT, 'crates.txt')) if re.match(r'\w+[^#]*:', l)}
ANSWERS = ('Answers.antt', 'Invariants.antt', 'Proof.antt')


def needed(crate):
    """The crates of the repository that a crate depends on, lowest first."""
    return [c for c in DEPENDS if c in DEPENDS[crate]]


def sources(crate):
    return [open(p).read() for p in glob.glob(os.path.join(CRATES, crate, 'src', '**', '*.rt'), recursive=True)]


def functions():
    """The names of all functions that stand in a module, and those of modules."""
    texts = [t for c in DEPENDS for t in sources(c)]
    return [{n for t in texts for n in re.findall(pattern, t, re.M)} for pattern in (r'^(?:pub )?(?:extern "C" )?fn (\w+)', r'^(?:pub )?mod (\w+)')]


FUNCTIONS, MODULES = functions()


def declared(text):
    """A source file without its functions: what it declares."""
    text = re.sub(r'^(ghost use .*|(pub )?use .*\b[a-z_0-9]+;)\n', '', text, flags=re.M)

    def kept(m):
        words = [w.strip() for w in m.group(2).split(',') if w.strip()]
        # a module may have a function's name: right after a crate's name the module is meant
        words = [w for w in words if w not in FUNCTIONS or w in MODULES and m.group(1).count('::') == 1]
        return '%s{%s};\n' % (m.group(1), ', '.join(words)) if words else ''
    text = re.sub(r'^((?:pub )?use [\w:]*)\{([^{}]*)\};\n', kept, text, flags=re.M)
    out, rest = [], text
    while True:
        m = re.search(r'^(#\[(unsafe|tactic|allow|inline|cycle)\b.*\]\s*)*(pub )?(extern "C" )?(fn|impl)\b', rest, re.M)
        if not m:
            return ''.join(out) + rest
        out.append(rest[:m.start()])
        # the body is the last brace group that opens at the end of a line of its own level: skip to the closing brace in the first column
        rest = rest[m.start():]
        rest = rest[re.search(r'^}\n?', rest, re.M).end():]


def copy(to, crates, laws):
    """Copies crates with no code, and with the laws of those in `laws` alone."""
    for crate in crates:
        at = os.path.join(to, crate)
        for part in ('src', 'specs', 'proofs'):
            if os.path.isdir(os.path.join(CRATES, crate, part)):
                shutil.copytree(os.path.join(CRATES, crate, part), os.path.join(at, part))
        for source in glob.glob(os.path.join(at, 'src', '**', '*.rt'), recursive=True):
            text = declared(open(source).read())
            open(source, 'w').write(text)
        for proof in glob.glob(os.path.join(at, 'proofs', '**', '*.antt'), recursive=True):
            if os.path.basename(proof) in ANSWERS:
                os.remove(proof)
        if crate not in laws:
            shutil.rmtree(os.path.join(at, 'proofs'), ignore_errors=True)


def prove(crate, folder, below, kept=None):
    """The prover's status and what it said of a crate of the folder, over the crates `below` as source, each over those that crates.txt lets it use."""
    root = lambda c: os.path.join(folder, c, 'src', 'lib.rt')
    words = ['--crate-name', crate, root(crate)]
    for library in ('core', 'std'):
        words += ['--extern', '%s=%s/rlibs/%s.rlib' % (library, KIT, library)]
    words += ['-L', 'dependency=%s/rlibs' % KIT]
    for c in below:
        words += ['--lib', '%s:%s=%s' % (c, ','.join(['core', 'std'] + [d for d in DEPENDS[c] if d in DEPENDS]), root(c))]
    words += ['--antt-project', os.path.join(KIT, 'rattle', 'logic', 'antt-project.json'), '--logic-built', os.path.join(KIT, 'logic_built')]
    words += ['--links', crate + '='] + (['--incremental', kept] if kept else [])
    done = subprocess.run([os.path.join(KIT, 'bin', 'rattle'), 'check'] + words, capture_output=True, text=True)
    return done.returncode, done.stdout + done.stderr
